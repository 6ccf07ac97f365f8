// The worker's own part, behind host.js: the first message has the module, each other one a call.
let module;

onmessage = ({ data }) => {
  if (data.module) {
    module = data.module;
  } else {
    postMessage({ number: data.number, ...call(module, data.words, data.files) });
  }
};
