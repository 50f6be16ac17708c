// Steps of records (docs/FORMATS.md), as the library writes them, and the lines of schedules that they are.

// A text with long numbers, which a double can't hold, as strings.
export const withLongNumbers = (text) => text.replace(/\b[0-9]{16,}\b/g, '"$&"');

// A step of a record as a line of a schedule, its envelope by its serial.
export function lineOf([name, member, what]) {
  if (name === "receive" || name === "postpone" || name === "lose" || name === "repeat") return `${member} ${name} #${what}`;
  if (name === "submit") return `${member} submit ${what.join(" ")}`;
  return what === undefined ? `${member} ${name}` : `${member} ${name} ${what}`;
}

// The lines of a schedule that say what a record's text says, which has to be one.
export function linesOfRecord(text) {
  const { n, cells, batch, steps } = JSON.parse(withLongNumbers(text));
  return [`members ${n}`, `cells ${cells}`, ...(batch === undefined ? [] : [`batch ${batch}`]), ...steps.map(lineOf)];
}

// The lines in an answer such as: enabled 1 deliver, 1 choose 3; or: next 1 suspect or 1 receive est 1/1 from 3
export const linesIn = (answer) => answer.replace(/^\w+ /, "").split(/, | or /).filter((line) => line !== "-");
