"use strict";
// What a worker runs behind host.js: it compiles one program, and runs it as often as it is asked to.
// A request is { id, module } or { id, run }; the answer is { id, result } or { id, fault }.
let program = null;

function answer({ module, run }) {
  if (module) {
    program = new WebAssembly.Module(module);
    return true;
  }
  return runProgram(program, run);
}

onmessage = ({ data }) => {
  try {
    postMessage({ id: data.id, result: answer(data) });
  } catch (thrown) {
    postMessage({ id: data.id, fault: String(thrown) });
  }
};
