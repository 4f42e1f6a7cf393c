/** Begins the page: with the server that served it, or with what is stored in it. */
import { App } from "./app.js";
import { byId } from "./dom.js";
import { LiveSource, StoredSource } from "./source.js";
import { followTheme } from "./theme.js";

const stored = byId("stored");
followTheme(byId("theme"));
new App(stored ? new StoredSource(JSON.parse(stored.textContent)) : new LiveSource()).begin();
