// The page begins here.

import { listenToAccepting } from "./accepting.js";
import { listenToFields, recall } from "./fields.js";
import { followServer } from "./following.js";
import { fontSizes } from "./font.js";
import { listenToKeys } from "./keyboard.js";
import { listenToMouse } from "./mouse.js";
import { followReviews } from "./proposals.js";
import { board, byId, shown } from "./state.js";
import { listenToTools } from "./tools.js";
import { showBox } from "./viewport.js";

shown.sizes = fontSizes(getComputedStyle(byId("sheet")).fontFamily);
recall();
listenToMouse();
listenToKeys();
listenToFields();
listenToTools();
showBox();
followServer();
board.readAbout().then(() => {
  document.body.classList.toggle("looking", !board.about.edits);
  byId("tabs").querySelector('[data-tab="history"]').hidden = board.about.kind === "folder";
  byId("boards").hidden = !board.about.boards;
  if (board.about.boards) byId("boards").href = board.about.boards;
  listenToAccepting();
  if (board.about.reviews) followReviews();
}, () => {});
