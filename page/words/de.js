// All texts in German.
import {ANSWERS} from "./de/answers.js";
import {CLAIMS} from "./de/claims.js";
import {FAULTS} from "./de/faults.js";
import {FORM} from "./de/form.js";
import {HELP} from "./de/help.js";
import {PAGE} from "./de/page.js";
import {PICTURES} from "./de/pictures.js";
import {TABLES} from "./de/tables.js";
import {VIEWS} from "./de/views.js";

export const DE = {...PAGE, ...HELP, ...VIEWS, ...FORM, ...ANSWERS, ...CLAIMS, ...FAULTS, ...PICTURES, ...TABLES};
