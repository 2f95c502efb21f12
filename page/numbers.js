// The limits of the desk, and every number with which it refuses: what it means and what to do about it.
"use strict";

const LIMITS = {
    question: 4096,
    each: 128,
    alternatives: 16,
    steps: 10000,
    lines: 512,
    room: 16384,
    filling: 4096,
    literal: 8192,
    pairs: 4096,
    rules: 32,
};

const withCommas = (n) => String(n).replace(/\B(?=(\d{3})+$)/g, ",");

const LIMIT_ROWS = [
    ["words of a question, and of what a step leaves", LIMITS.question, "2, 7, 19"],
    ["names of parts, and blanks of each sort", LIMITS.each, "3, 18, 25"],
    ["alternatives of a question (lines of a text)", LIMITS.alternatives, "3, 18"],
    ["steps", LIMITS.steps, "10"],
    ["lines of an answer", LIMITS.lines, "9"],
    ["words of an answer, and of what waits at one time", LIMITS.room, "8, 9"],
    ["words of a filling or of an example", LIMITS.filling, "11, 16"],
    ["words of a test with a filling put in", LIMITS.literal, "13"],
    ["pairs of shapes when two shape tests of one blank are compared", LIMITS.pairs, "21"],
    ["rules of a sheet", LIMITS.rules, "24"],
];

// What a number is about: the question, the run, a filling, an example, a text, a sheet or a trail.
const NUMBERS = [
    { number: 1, about: "the page", means: "A room lent to the desk is too short.", remedy: "This is a fault of the page. The question is fine." },
    { number: 2, about: "the question", means: "The question has under 6 or over 4,096 words.", remedy: "Look for words that are left out, or ask in several questions." },
    { number: 3, about: "the question", means: "A count of the question is out of range.", remedy: "The first five words count the names of parts (1 to 128, and 256 times as many as come in any order, at most all of them), the blanks for a part, for a run and for a name (0 to 128 each), and the alternatives (0 to 16)." },
    { number: 4, about: "the question", means: "An offset of the question is missing or out of place.", remedy: "For c alternatives c + 1 offsets follow the counts: the first is 6 + c, none is less than the one before it, the last is the number of words." },
    { number: 5, about: "the question", means: "An alternative is not exactly tests. The page marks the first word that cannot stand there.", remedy: "A test is 5000, a side, 0, a side, 0; or 6000, a side, 0, a shape. Look for a 0 too many or too few, and whether the offsets stand where alternatives end." },
    { number: 6, about: "the question", means: "The question has a number that it does not declare. The page marks the first.", remedy: "Raise its count among the first four words, or correct it: with two names of parts these are 3000 and 3001." },
    { number: 7, about: "the run", means: "A step's result is longer than 4,096 words.", remedy: "Ask a smaller question." },
    { number: 8, about: "the run", means: "What waits takes more than 16,384 words together.", remedy: "Ask about one alternative at a time, or add what is known." },
    { number: 9, about: "the run", means: "There is a 513th line, or a line past the end of the answer.", remedy: "Ask about one alternative at a time, or add what is known." },
    { number: 10, about: "the run", means: "10,000 steps are made and a rule still applies.", remedy: "Ask about one alternative at a time, or add what is known." },
    { number: 11, about: "a filling", means: "The filling's length, count or offsets are not right.", remedy: "A filling has a value for each blank, and at most 4,096 words." },
    { number: 12, about: "a filling", means: "A value has the wrong form, or a name that the question does not have.", remedy: "A blank for a part takes one part, a blank for a run any parts, a blank for a name one bare name; all without blanks, and with names of the question." },
    { number: 13, about: "a filling", means: "A test of the question, with the filling put in, is longer than 8,192 words.", remedy: "Try a shorter filling." },
    { number: 14, about: "an example", means: "There is no such line.", remedy: "The first line is line 0." },
    { number: 15, about: "an example", means: "The line is open.", remedy: "Only a settled line has an example." },
    { number: 16, about: "an example", means: "The example, or the report of two rules, is longer than 4,096 words or than the room lent for it.", remedy: "There is one all the same: the line, or the pair, says so." },
    { number: 17, about: "a text", means: "It is not a text of the desk's grammar. The page marks the first character that cannot stand there.", remedy: "Look for a bracket or a comma too many or too few, and for characters other than letters, digits and ? * % ( ) , = +." },
    { number: 18, about: "a text", means: "More than 128 names of one sort, or more than 16 lines.", remedy: "Ask in several questions." },
    { number: 19, about: "a text", means: "As words the text is longer than 4,096 words.", remedy: "Ask in several questions." },
    { number: 20, about: "a text", means: "The question cannot be written as a text: it numbers or counts something that does not appear, or has parts that come in any order.", remedy: "Stay with its words." },
    { number: 21, about: "the run", means: "Two shape tests of one blank lead to more than 4,096 pairs of shapes when they are compared.", remedy: "Ask with shorter shape tests of that blank, or with one of them alone." },
    { number: 22, about: "a day", means: "The sheet of a day's questions is not laid out as one.", remedy: "The page asks one question at a time and never gets this number; the control room's program may." },
    { number: 23, about: "a day", means: "The answers of a day do not fit the room lent for them.", remedy: "The page asks one question at a time and never gets this number; the control room's program may." },
    { number: 24, about: "rules", means: "The sheet has more than 32 rules.", remedy: "Ask about part of them, each part with every other." },
    { number: 25, about: "rules", means: "Two rules have more than 128 blanks of one sort together.", remedy: "Write one of the two shorter." },
    { number: 26, about: "a trail", means: "A step of a trail does not apply.", remedy: "The page takes trails from the desk alone and so never gets this number." },
    { number: 27, about: "a trail", means: "A trail ends too early.", remedy: "The page takes trails from the desk alone and so never gets this number." },
    { number: 28, about: "a trail", means: "A trail goes on after the end.", remedy: "The page takes trails from the desk alone and so never gets this number." },
    { number: 29, about: "a trail", means: "The trail does not fit the room lent for it.", remedy: "The page lends room for 10,000 steps and so never gets this number." },
    { number: 99, about: "the browser", means: "The browser ended the desk before it had answered: the question is nested too deeply for the room that the browser gives a page.", remedy: "Ask it at the prompt (./desk solve), which has more room. This number is the page's own and not the desk's." },
];

const numberEntry = (n) => NUMBERS.find((entry) => entry.number === n) ?? { number: n, about: "the page", means: "No number of the table.", remedy: "This is a fault of the page." };
