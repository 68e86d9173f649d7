// Runs the program in a thread of its own, so that the page answers while it works and can stop it.
import { runOn } from "./parts.js";

let module = null;

onmessage = ({ data }) => {
  if (data.module) {
    module = data.module;
    return;
  }
  try {
    postMessage({ id: data.id, came: runOn(module, data.words, data.files) });
  } catch (error) {
    postMessage({ id: data.id, failure: `the run broke off: ${error.message}` });
  }
};
