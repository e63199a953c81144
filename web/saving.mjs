// Files to this computer: by download, or in place where the browser gave a handle of the file.
import { ask } from "./ask.mjs";

const PATIENCE = 60000; // milliseconds in which a download is begun

export function download(name, data) {
  const link = document.createElement("a");
  link.href = URL.createObjectURL(new Blob([data]));
  link.download = name;
  link.click();
  setTimeout(() => URL.revokeObjectURL(link.href), PATIENCE);
}

// Where a disk was opened from.
export class Place {
  constructor(handle, { name, lastModified }) {
    Object.assign(this, { handle, name, lastModified });
  }

  // Whether the bytes were saved there; null if they shouldn't be. The browser asks whether this page may.
  async save(bytes) {
    try {
      const { lastModified } = await this.handle.getFile();
      if (lastModified !== this.lastModified && !(await ask(`Another program changed ${this.name}.`, "Overwrite it"))) return null;
      const out = await this.handle.createWritable(); // takes the file's place when it is closed
      await out.write(bytes);
      await out.close();
      ({ lastModified: this.lastModified } = await this.handle.getFile());
      return true;
    } catch {
      return false;
    }
  }
}
