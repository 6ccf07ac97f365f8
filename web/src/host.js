"use strict";

// One call of the program: a new instance of its module, with words for its command line and files that it may read. The six
// functions are all that the module can reach (web/c/library.c asks for them); numbers of 64 bits come as BigInt.

class Exit {
  constructor(status) {
    this.status = status;
  }
}

// `words` are texts, without the program's name; `files` maps names to Uint8Arrays. Gives the exit status, null where the engine
// broke the call off, and what was written to standard output and standard error, as Uint8Arrays.
function call(module, words, files) {
  const coded = ["confine", ...words].map((word) => new TextEncoder().encode(word));
  const opened = [];
  const written = [[], []];
  const OUT = 1, FIRST = 3;
  const ABSENT = -1n, TOO_LONG = -2n;
  let memory;
  const at = (place, length) => new Uint8Array(memory.buffer, Number(place), Number(length));

  const host = {
    argument(index, place, room) {
      const word = coded[index];
      if (!word) return ABSENT;
      if (word.length > room) return TOO_LONG;
      at(place, word.length).set(word);
      return BigInt(word.length);
    },
    open(name, length) {
      const bytes = files.get(new TextDecoder().decode(at(name, length)));
      if (!bytes) return -1;
      return FIRST + opened.push({ bytes, read: 0 }) - 1;
    },
    read(file, place, room) {
      const source = opened[file - FIRST];
      if (!source) return 0n; // standard input is empty
      const part = source.bytes.subarray(source.read, source.read + Number(room));
      at(place, part.length).set(part);
      source.read += part.length;
      return BigInt(part.length);
    },
    write(file, place, length) {
      written[file - OUT].push(at(place, length).slice());
      return length;
    },
    close: () => 0,
    exit(status) {
      throw new Exit(status);
    },
  };

  let status, broken = "";
  try {
    const { exports } = new WebAssembly.Instance(module, { host });
    memory = exports.memory;
    status = exports.run();
  } catch (thrown) {
    if (thrown instanceof Exit) {
      status = thrown.status;
    } else {
      status = null;
      broken = `the browser broke the program off: ${thrown}\n`;
    }
  }
  const [output, error] = written.map(joined);
  return { status, output, error: broken ? joined([error, new TextEncoder().encode(broken)]) : error };
}

function joined(parts) {
  const whole = new Uint8Array(parts.reduce((length, part) => length + part.length, 0));
  let at = 0;
  for (const part of parts) {
    whole.set(part, at);
    at += part.length;
  }
  return whole;
}
