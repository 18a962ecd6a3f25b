// The commands of the program, and what its exit statuses mean.
import {say} from "../../words/say.js";

/** Each command with the key of what it asks. */
export const COMMANDS = [
    ["solve", "command.solve"], ["range", "command.range"], ["firms", "command.firms"], ["check", "command.check"],
    ["support", "command.support"], ["judge", "command.judge"], ["session", "command.session"],
    ["test", "command.test"], ["replay", "command.replay"], ["solve --csv", "command.rows"],
    ["solve --csv=wide", "command.rows_wide"], ["range --csv", "command.rows_range"],
    ["firms --csv", "command.rows_firms"], ["support --csv", "command.rows_support"],
    ["cases", "command.cases"], ["help", "command.help"]];

const VERDICTS = {0: "status.yes", 1: "status.fault", 2: "status.no_command", 3: "status.unread",
    5: "status.no_memory", 6: "status.no"};

/** An exit status in words. */
export function verdictOf(status, words) {
    const isFound = status === 0 && ["solve", "range", "session", "drill", "help", "-h", "--help", "--version"].includes(words[0]);
    return say(isFound ? "status.answered" : VERDICTS[status] ?? "status.unknown");
}
