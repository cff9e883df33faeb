// How long the paper is that is printed: as long as what stands on it.
import { find } from "./forms.js";

const MARGIN = 4; // millimetres around, as in print.css
const WIDE = 72; // millimetres between the margins of the paper
const SPARE = 2; // millimetres: a printer's letters may be a little larger than the screen's
const LONGEST = 3000; // millimetres of one sheet: a longer report goes on on the next one
const MILLIMETRE = 96 / 25.4; // pixels

const sheet = new CSSStyleSheet();
document.adoptedStyleSheets = [sheet];

/** Lays the paper out as the printer will, measures it, and gives the page that length. */
export function fitPaper() {
  const style = find("print-style");
  style.media = "all";
  document.body.style.width = `${WIDE}mm`;
  const height = document.body.getBoundingClientRect().height / MILLIMETRE;
  document.body.style.width = "";
  style.media = "print";
  const length = Math.min(Math.ceil(height) + SPARE + 2 * MARGIN, LONGEST);
  sheet.replaceSync(`@page { size: 80mm ${length}mm; margin: ${MARGIN}mm; }`);
}
