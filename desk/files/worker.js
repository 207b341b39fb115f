// The service worker of /app: with a network the newest page opens; without one, or where the desk does not answer in time or not with a page, the
// one that was fetched last.
const KEPT = "farmbook";
const OWN = ["/app", "/app/manifest.webmanifest", "/app/icon.svg"];
const PATIENCE = 4000;

self.addEventListener("install", (event) => event.waitUntil(caches.open(KEPT).then((kept) => kept.addAll(OWN)).then(() => self.skipWaiting())));
self.addEventListener("activate", (event) => event.waitUntil(self.clients.claim()));

async function fetched(request, kept) {
    const fresh = await fetch(request);
    if (fresh.ok) {
        await kept.put(request, fresh.clone());
    }
    return fresh;
}

async function answer(event) {
    const kept = await caches.open(KEPT);
    const old = await kept.match(event.request);
    const fresh = fetched(event.request, kept).catch(() => Response.error());
    event.waitUntil(fresh);
    const late = new Promise((resolve) => setTimeout(resolve, PATIENCE, old));
    const first = await (old ? Promise.race([fresh, late]) : fresh);
    return first.ok ? first : old ?? first;
}

self.addEventListener("fetch", (event) => {
    if (event.request.method === "GET" && OWN.includes(new URL(event.request.url).pathname)) {
        event.respondWith(answer(event));
    }
});
