// Reads the pages that this one shows in frames of 360 px, and writes a line for each: what a reader of the page would see.
// tests/sidebyside/browser puts it behind the frames; the pages themselves have no script.
"use strict";

// WCAG's contrast of two colours as the browser computes them, rgb(r, g, b)
function light(colour) {
    const part = colour.match(/[\d.]+/g).slice(0, 3).map(n => n / 255).map(c => c <= 0.03928 ? c / 12.92 : ((c + 0.055) / 1.055) ** 2.4);
    return 0.2126 * part[0] + 0.7152 * part[1] + 0.0722 * part[2];
}
function contrast(one, other) {
    const [low, high] = [light(one), light(other)].sort((a, b) => a - b);
    return (high + 0.05) / (low + 0.05);
}

// what stands behind an element: the first background above it that isn't clear
function behind(view, element) {
    for (let at = element; at; at = at.parentElement) {
        const colour = view.getComputedStyle(at).backgroundColor;
        if (!/, 0\)$/.test(colour)) return colour;
    }
    return "rgb(255, 255, 255)";
}

function worstContrast(view, document) {
    const spoken = [...document.querySelectorAll("h1, h2, p, a, th, td, .sign")].filter(element => element.textContent.trim() !== "");
    return Math.min(...spoken.map(element => contrast(view.getComputedStyle(element).color, behind(view, element))));
}

const plain = element => element.textContent.replaceAll("\u00a0", " ");

// a row's mark, subject, what and two cells, as the program comparer writes them
function rowLine(row) {
    const cells = [...row.querySelectorAll("td")], sign = row.querySelector(".sign").textContent;
    const marked = cells.filter(cell => cell.className === "differs").length;
    const mark = marked === 2 && sign === "\u2260" ? "!" : marked === 0 && sign === "" ? "=" : "?";
    const subject = row.closest("tbody").querySelector(".subject").id.replace("-", " ");
    return [mark, subject, plain(row.querySelector("th")).replace(sign, ""), ...cells.map(plain)].join("\t");
}

function pageLines(frame) {
    const view = frame.contentWindow, document = view.document, name = frame.dataset.name;
    const facts = {
        differs: document.querySelectorAll(".differs").length,
        cells: document.querySelectorAll("table.rows td.differs").length,
        wide: document.documentElement.scrollWidth,
        scripts: document.querySelectorAll("script, link, img, iframe, object, [src], [style*=url]").length,
        fetched: view.performance.getEntriesByType("resource").length,
        lang: document.documentElement.lang,
        titled: document.title !== "",
        viewport: document.querySelectorAll("meta[name=viewport]").length,
        dark: view.matchMedia("(prefers-color-scheme: dark)").matches,
        contrast: worstContrast(view, document).toFixed(1),
    };
    const rows = [...document.querySelectorAll("table.rows tbody tr")].filter(row => row.querySelector("td"));
    return ["page " + name + " " + Object.entries(facts).map(fact => fact.join("=")).join(" "), ...rows.map(row => name + "\t" + rowLine(row))];
}

addEventListener("load", () => {
    const lines = [...document.querySelectorAll("iframe")].flatMap(pageLines);
    document.querySelector("#read").textContent = "begin\n" + lines.join("\n") + "\nend\n";
});
