// The draft, kept in this browser. A change is kept (IndexedDB, durability strict, awaited) before it is shown. Two windows: the first one has the
// draft, and every change is compared with the number of the one before, so that no window writes over what another has kept.

const STORE = "draft";
const KEY = "draft";
const LOCK = "farm-book-draft";

const asked = (request) => new Promise((resolve, reject) => {
    request.onsuccess = () => resolve(request.result);
    request.onerror = () => reject(request.error);
});

export class OtherWindow extends Error {}

async function opened() {
    const request = indexedDB.open("farm-book", 1);
    request.onupgradeneeded = () => request.result.createObjectStore(STORE);
    return asked(request);
}

// No database where the browser keeps nothing: the page works, and says so. A private window that keeps until it is closed can't be told from others.
export async function openStore() {
    try {
        const database = await opened();
        return { database, number: 0 };
    } catch {
        return { database: null, number: 0 };
    }
}

export async function fetchKept(store) {
    if (!store.database) {
        return null;
    }
    const kept = await asked(store.database.transaction(STORE).objectStore(STORE).get(KEY));
    store.number = kept?.number ?? 0;
    return kept?.draft ?? null;
}

// Ends when the draft is on the disk. An OtherWindow where another window kept a change since, any other error where there is no room.
export function keep(store, draft) {
    return new Promise((resolve, reject) => {
        const transaction = store.database.transaction(STORE, "readwrite", { durability: "strict" });
        const drafts = transaction.objectStore(STORE);
        let reason = null;
        transaction.oncomplete = () => { store.number += 1; resolve(); };
        transaction.onabort = () => reject(reason ?? transaction.error ?? new Error("the change was not kept"));
        const before = drafts.get(KEY);
        before.onsuccess = () => {
            if ((before.result?.number ?? 0) !== store.number) {
                reason = new OtherWindow("another window has changed the draft");
                transaction.abort();
                return;
            }
            try {
                drafts.put({ number: store.number + 1, draft }, KEY);
            } catch (error) {
                reason = error;
                transaction.abort();
            }
        };
    });
}

// Calls `mine` when this window has the draft, at once or when the window that has it is closed; `theirs` where another one has it now.
export function claim(mine, theirs) {
    if (!navigator.locks) {
        mine();
        return;
    }
    const hold = () => new Promise(() => {});
    navigator.locks.request(LOCK, { ifAvailable: true }, (lock) => {
        if (lock) {
            mine();
            return hold();
        }
        theirs();
        navigator.locks.request(LOCK, () => { mine(); return hold(); });
        return undefined;
    });
}
