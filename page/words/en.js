// All texts in English.
import {ANSWERS} from "./en/answers.js";
import {CLAIMS} from "./en/claims.js";
import {FAULTS} from "./en/faults.js";
import {FORM} from "./en/form.js";
import {HELP} from "./en/help.js";
import {PAGE} from "./en/page.js";
import {PICTURES} from "./en/pictures.js";
import {TABLES} from "./en/tables.js";
import {VIEWS} from "./en/views.js";

export const EN = {...PAGE, ...HELP, ...VIEWS, ...FORM, ...ANSWERS, ...CLAIMS, ...FAULTS, ...PICTURES, ...TABLES};
