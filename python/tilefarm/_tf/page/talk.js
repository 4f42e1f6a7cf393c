/** Begins the page of a world that is stored in it. */
import { byId } from "./dom.js";
import { followTheme } from "./theme.js";
import { WorldView } from "./world_view.js";

followTheme(byId("theme"));
const view = new WorldView(byId("world"));
view.show(JSON.parse(byId("stored").textContent));
document.addEventListener("keydown", (event) => view.pressed(event));
