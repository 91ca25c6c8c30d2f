// The records that this browser keeps for the pages of a server.

const STORE = "records";

const opened = () =>
  new Promise((resolve, reject) => {
    const asked = indexedDB.open("gidzvruka");
    asked.onupgradeneeded = () => asked.result.createObjectStore(STORE, { keyPath: "id" });
    asked.onsuccess = () => resolve(asked.result);
    asked.onerror = () => reject(asked.error);
  });

export class Store {
  #database = null;

  // Does a step with the records as one transaction. It fails where the browser keeps nothing for the page, or has no room.
  async change(step) {
    try {
      this.#database ??= await opened();
      const change = this.#database.transaction(STORE, "readwrite");
      step(change.objectStore(STORE));
      await new Promise((resolve, reject) => Object.assign(change, { oncomplete: resolve, onabort: () => reject(change.error) }));
    } catch (fault) {
      this.#database = null;
      throw fault;
    }
  }
}
