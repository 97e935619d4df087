// Other texts that are made of the one in the editor, line by line of its bytes: what is no text stays as it is.
const encoder = new TextEncoder(), decoder = new TextDecoder();

/** Bytes as a string of one character each, and back. */
function asCharacters(bytes) {
  let made = "";
  for (let at = 0; at < bytes.length; at += 32768) made += String.fromCharCode(...bytes.subarray(at, at + 32768));
  return made;
}

const asBytes = (characters) => Uint8Array.from(characters, (character) => character.charCodeAt(0));

function withLines(bytes, change) {
  const lines = asCharacters(bytes).split("\n");
  return asBytes(change(lines, readMachine(lines.join("\n"))).join("\n"));
}

/** The text with this command line in place of its own; `null` keeps its own. */
function withCommandLine(bytes, commandLine) {
  if (commandLine === null) return bytes;
  return withLines(bytes, (lines, machine) => {
    const line = `cmdline ${asCharacters(encoder.encode(commandLine))}`;
    if (machine.commandLineAt !== null) lines[machine.commandLineAt] = line;
    else if (machine.bootAt !== null) lines.splice(machine.bootAt + 1, 0, line);
    return lines;
  });
}

/** The text without the steps of these cores: what there would be, had they stayed away. */
function withoutCores(bytes, cores) {
  const away = new Set(cores);
  return withLines(bytes, (lines, machine) => {
    const theirs = machine.steps.filter((step) => step.core !== null && away.has(step.core));
    const dropped = new Set(theirs.map((step) => step.at));
    return lines.filter((_, at) => !dropped.has(at));
  });
}

/** A machine of one core alone, under this text's command line. */
function aloneText(bytes, machine, core) {
  const lines = asCharacters(bytes).split("\n");
  const words = Object.entries(core.words).map(([name, word]) => `${name} 0x${word.toString(16)}`);
  const lengths = machine.format === "2" ? [`sve_vl ${core.lengths}`] : [];
  const commandLine = machine.commandLineAt === null ? [] : [lines[machine.commandLineAt]];
  const core0 = [`armcaps ${machine.format}`, "core 0", ...words, ...lengths, "boot 0"];
  return asBytes([...core0, ...commandLine, "finalise", "end", ""].join("\n"));
}

/** Where the text of a file ends: behind its line `image`, or at the file's end, as where other texts follow. */
function endOfText(bytes) {
  const start = asCharacters(bytes.subarray(0, 1 << 20));
  if (!start.startsWith("armcaps ")) return bytes.length;
  const last = start.match(/\n *image +\S+ *\n/), end = last ? last.index + last[0].length : bytes.length;
  return start.startsWith("armcaps ", end) ? bytes.length : end;
}

const TAKEN_FOR = [
  [/\0/, "This is a binary file and no text. A kernel image goes behind a text that ends in a line image LENGTH: "
    + "armcaps-kernel2text writes one."],
  [/^\xef\xbb\xbf/, "The text begins with a byte order mark: save it without."],
  [/\r/, "The lines end in a carriage return and a line feed: the program wants the line feed alone."],
  [/^armcaps (report|trace) 1\n/, "This is what the program wrote, and not the machine text that it read."],
  [/midr|id_aa64|ctr_el0|\bmd\.[qlb]|[0-9a-f]{8,16}:/i, "This looks like a dump of registers: armcaps-dump2text makes "
    + "a machine text of it (armcaps-dump2text DUMP > board.txt)."],
];

/** What a file or a text is that is no machine text, with what to do; an empty string where nothing is known of it. */
function whatItMayBe(bytes) {
  const start = asCharacters(bytes.subarray(0, 1 << 16));
  if (!bytes.length) return "There is no text: choose an example, or open a file.";
  const known = TAKEN_FOR.find(([pattern]) => pattern.test(start));
  return known ? known[1] : "";
}
