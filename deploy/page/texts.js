// Every text of the page.

const UNITS = ["bytes", "kB", "MB", "GB", "TB"];

export function size(bytes) {
    let value = bytes, unit = 0;
    while (value >= 1000 && unit < UNITS.length - 1) {
        value /= 1000;
        unit += 1;
    }
    return unit === 0 ? `${bytes} ${bytes === 1 ? "byte" : "bytes"}` : `${value.toFixed(1)} ${UNITS[unit]}`;
}

export function duration(seconds) {
    if (!Number.isFinite(seconds)) {
        return "";
    }
    const whole = Math.ceil(seconds);
    const parts = [[Math.floor(whole / 3600), "h"], [Math.floor((whole % 3600) / 60), "min"], [whole % 60, "s"]];
    const first = parts.findIndex(([value]) => value > 0);
    return first === -1 ? "0 s" : parts.slice(first, first + 2).map((part) => part.join(" ")).join(" ");
}

const several = (number, one, many) => `${number} ${number === 1 ? one : many}`;

export const files = (number) => several(number, "file", "files");

export const ELEMENTS = {
    "dc:title": "Title", "dc:creator": "Creator", "dc:subject": "Subject", "dc:description": "Description",
    "dc:publisher": "Publisher", "dc:contributor": "Contributor", "dc:date": "Date", "dc:type": "Type", "dc:format": "Format",
    "dc:identifier": "Identifier", "dc:source": "Source", "dc:language": "Language", "dc:relation": "Relation",
    "dc:coverage": "Coverage", "dc:rights": "Rights", "dcterms:abstract": "Abstract", "dcterms:created": "Date created",
    "dcterms:license": "Licence", "dcterms:spatial": "Place covered", "dcterms:temporal": "Time covered",
};

export const text = {
    deposit: "Deposit", objects: "Objects", views: "Views", skip: "To the content",
    loading: "Asking the server.",
    noJournal: "This browser lets the page keep nothing, so no deposit could be gone on with.",
    noJournalHelp: "Leave private browsing, or allow the page to store data. If that doesn't help, close all windows of the browser, and open it again.",
    mark: (id) => `Deposit ${id} is in progress`,

    filesLegend: "Files",
    rule: "A file in a subfolder is named by its path below the chosen folder, with __ in place of each /. The folder's own name is left out.",
    drop: "Drop files and folders here, or choose them:",
    chooseFiles: "Choose files", chooseFolder: "Choose a folder",
    nothingChosen: "No file is chosen yet.",
    chosen: (number, bytes) => `${files(number)}, ${size(bytes)}`,
    becomes: "is deposited as",
    remove: "Leave out", removeNamed: (name) => `Leave out ${name}`,
    unfit: "The server doesn't take this name: it has a control character or a backslash, or more than 255 bytes. Rename the file, or leave it out.",
    twice: "Another file has the same name. Leave one of them out.",
    tooLarge: (most) => `The server takes files of at most ${size(most)}.`,
    cannotBegin: "Some files can't be deposited as they are: see the remarks at them.",
    chooseFirst: "Choose at least one file first.",

    describeLegend: "Description",
    element: "Field", value: "Text", valueOf: (name) => `Text of ${name}`, addField: "Add a field", removeField: (name) => `Remove ${name}`,
    removeShort: "Remove",
    begin: "Deposit",

    unfinished: "Deposits that were broken off",
    unfinishedHint: "They are kept in this browser alone. To go on, choose the same files again: only what the server lacks is sent.",
    unfinishedOne: (title, number, bytes, moment) => `${title}: ${files(number)}, ${size(bytes)}, begun ${moment}`,
    untitled: "Without a title",
    goOn: "Go on", goOnWith: (title) => `Go on with ${title}`,
    forget: "Forget", forgetOne: (title) => `Forget ${title}`,
    forgetAsk: "The page forgets this deposit. What the server has of it stays there, in progress. Forget it?",
    elsewhere: "This deposit is open in another tab or window of this browser. Go on there, or close it first.",

    states: {
        "new": "", "running": "Depositing.", "paused": "Paused. What was sent stays with the server.",
        "needs files": "Choose the files that are marked below again, and go on. Only what the server lacks is sent.",
        "stopped": "Stopped.", "done": "Deposited. The server has every file as it is here.",
    },
    ending: "The server puts together what was sent. Each file is read here once more, to see that it didn't change.",
    pause: "Pause", tryNow: "Try now", again: "Try again", newDeposit: "Another deposit", later: "Leave it for later",
    waits: (seconds) => `The server can't be reached. The next try is in ${duration(seconds)}; nothing that it has is lost.`,
    all: "All files", progress: (done, total) => `${size(done)} of ${size(total)}`,
    speed: (bytes) => `${size(Math.round(bytes))} a second`, left: (seconds) => `${duration(seconds)} left`,
    items: {
        waiting: "waits", sending: "is sent", sent: "is with the server", there: "deposited",
        missing: "choose it again", changed: "changed meanwhile: choose it again",
    },
    found: (found, number) => `${found} of ${files(number)} chosen again.`,
    notOfIt: (number) => `${files(number)} of those chosen are no part of this deposit, and are left out.`,
    leaveMissing: (number) => `Go on without ${files(number)}`,
    show: (number) => `Look at object ${number}, and check it`,

    ask: "Address or number of an object", showIt: "Show",
    noList: "The server has no list of its objects. These are the ones that this browser deposited:",
    noneYet: "This browser has deposited nothing yet. The server has no list of its objects: enter the number or the address of one.",
    noNumber: "That is no number and no address of an object.",
    otherServer: (host) => `That address is of another server, ${host}.`,
    object: (number) => `Object ${number}`,
    address: "Address", state: "State", changed: "Last change", tag: "Version",
    ingested: "ingested: it was deposited to its end", inProgress: "in progress: it was not deposited to its end",
    metadata: "Description", noMetadata: "Nothing is written here.", edit: "Edit the description", save: "Save", cancel: "Cancel",
    saved: "Saved.",
    conflict: "Somebody else changed the description meanwhile, so yours was not saved. Both stand below.",
    theirs: "What stands there now", yours: "What you wrote", saveOver: "Save yours in its place", keepTheirs: "Keep what stands there",
    filesOf: (number) => `Files (${number})`, noFiles: "This object has no files.",
    by: "by", behalfOf: "on behalf of",
    number: (number) => `number ${number}`,
    deleteFile: "Delete", deleteFileNamed: (name) => `Delete ${name}`, deleteObject: "Delete the object",
    deleteAsk: (number, what) => `This can't be undone. To delete ${what}, type its number, ${number}.`,
    theFile: (name) => `the file ${name}`, theObject: (number) => `object ${number} with all its files`,
    typed: "Number", deleteIt: "Delete", wrongNumber: "That is another number: nothing was deleted.",
    deleted: (what) => `Deleted: ${what}.`,
    bag: "The list of its bag", reload: "Show it anew",
    changedMeanwhile: "The object was changed meanwhile: what stands here now was read anew. Look at it, and try again.",

    check: "Check", checkHint: "Reads each file back from the server, and says whether it still is what was deposited, by its SHA-256.",
    checking: (done, number, bytes) => `Checking: ${done} of ${files(number)}, ${size(bytes)} read.`,
    stopCheck: "Stop",
    checkStopped: (done, number) => `Stopped: only ${done} of ${files(number)} were checked.`,
    allWell: (number, own, bytes) => `${files(number)} and ${own} records about them were checked, ${size(bytes)}: none differs, and all could be read.`,
    damage: (number, own, differ, unread) => `${files(number)} and ${own} records about them were checked: ${differ} ${differ === 1 ? "differs" : "differ"}, ${unread} couldn't be read. Tell whoever runs the server.`,
    checkChanged: "The object was changed during the check: check it again.",
    marks: { same: "✓ as deposited", differs: "✗ differs", unread: "✗ couldn't be read" },
    unlisted: "no manifest names it", lacking: "the manifest lacks it",

    noAnswer: "The server can't be reached.",
    noAnswerHelp: "Wait a little and try again. If it lasts, tell whoever runs the server.",
    fault: "The server has a fault, and did nothing.",
    faultHelp: "Try again later. If it lasts, tell whoever runs the server.",
    noPassword: "The password was not accepted.", noPasswordHelp: "Load the page again and enter it.",
    forbidden: "This was not allowed.", forbiddenHelp: "Ask whoever runs the server for the right to do it.",
    unknown: "The server answered in a way that this page doesn't know.",
    unknownHelp: "Load the page again. If it happens again, tell whoever runs the server.",
    keepsChanging: (name) => `${name} keeps changing while it is sent.`,
    keepsChangingHelp: "Close the program that writes it, and go on.",
    broken: "The page met a fault of its own.",
};

// What a person can do about a refusal, where there is more to say than `unknownHelp`.
const HELP = {
    UnexpectedSegment: "The file was changed while it was sent. Choose it again.",
    SegmentLimitExceeded: "Leave this file out, or split it.", MaxAssembledSizeExceeded: "Leave this file out, or split it.",
    NotFound: "It was deleted, or never was there. Look at the number.",
    SegmentedUploadTimedOut: "Go on: what timed out is sent anew.",
    DigestMismatch: "What came isn't what was sent. Try again; if it happens again, tell whoever runs the server.",
    ETagNotMatched: "Somebody else changed it meanwhile. Look at it, and try again.",
    OnBehalfOfNotAllowed: "Tell whoever runs the server: it has to take deposits on behalf of others.",
    MaxUploadSizeExceeded: "Tell whoever runs the server: its limits changed. Load the page again.",
    StoreFull: "Tell whoever runs the server.",
};

// What a fault says, and what the person can do.
export function told(fault) {
    if (fault.log) {
        return { words: `${fault.message} (${fault.name}, ${fault.log}).`, help: HELP[fault.name] ?? text.unknownHelp };
    }
    const name = fault.constructor.name;
    if (name === "Unreachable") {
        return fault.status === 500 ? { words: text.fault, help: text.faultHelp } : { words: text.noAnswer, help: text.noAnswerHelp };
    }
    if (name === "Unkept") {
        return { words: `${text.noJournal} ${fault.message}`.trim(), help: text.noJournalHelp };
    }
    if (name === "Changed") {
        return { words: text.keepsChanging(fault.message), help: text.keepsChangingHelp };
    }
    if (name === "Refused") {
        return { 401: { words: text.noPassword, help: text.noPasswordHelp }, 403: { words: text.forbidden, help: text.forbiddenHelp } }[fault.status]
            ?? { words: text.unknown, help: text.unknownHelp };
    }
    return { words: `${text.broken} ${fault.message}`, help: text.unknownHelp };
}
