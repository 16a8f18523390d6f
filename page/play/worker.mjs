// The host beside the page, so that a long run leaves the page as it is and can be given up.

import { Host } from './host.mjs';

let host = null;

self.onmessage = async ({ data }) => {
  try {
    if (data.module !== undefined) {
      host = new Host(await WebAssembly.compile(data.module));
      self.postMessage({ isReady: true });
    } else {
      self.postMessage({ answer: await host.ask(data.words, data.files) });
    }
  } catch (fault) {
    self.postMessage({ fault: String(fault) });
  }
};
