//! The inspector's pages in a real browser, wide and 390 pixels narrow. These tests need the program `chromium`.

#[path = "../examples/support/mod.rs"]
mod support;

#[path = "../examples/inspect/view/mod.rs"]
mod view;

mod stored;

use std::{
    fs,
    path::PathBuf,
    process::Command,
    sync::atomic::{AtomicUsize, Ordering},
};

use support::{driven::NAMES, outline::text};
use view::{frames, histories, input::Input, plate};

const MANUAL: &str = "docs/MANUAL.md";

/// The texts of elements of a class that hold no others.
fn texts<'a>(page: &'a str, start: &str) -> Vec<&'a str> {
    let ends = |rest: &'a str| rest.split('<').next().unwrap();
    page.split(start).skip(1).map(ends).collect()
}

/// Writes a page to a file of its own: tests run side by side.
fn written(page: &str) -> PathBuf {
    static FILES: AtomicUsize = AtomicUsize::new(0);
    let number = FILES.fetch_add(1, Ordering::Relaxed);
    let file = PathBuf::from(env!("CARGO_TARGET_TMPDIR")).join(format!("page_{number}.html"));
    fs::write(&file, page).unwrap();
    file
}

/// A page as Chromium leaves it after its scripts ran.
fn dumped(page: &str) -> String {
    let file = written(page);
    let (url, folder) = (format!("file://{}", file.display()), format!("--user-data-dir={}.profile", file.display()));
    let words =
        ["--headless", "--no-sandbox", "--disable-gpu", "--virtual-time-budget=5000", "--dump-dom", &folder, &url];
    let output = Command::new("chromium").args(words).output().expect("chromium is on the path");
    String::from_utf8(output.stdout).unwrap()
}

/// A page after one more script ran.
fn loaded(page: &str, script: &str) -> String {
    dumped(&page.replace("</body>", &format!("<script>{script}</script></body>")))
}

/// What a script answers in a page that is `width` pixels wide: in a frame of a page, since no window is so narrow.
fn asked(name: &str, page: &str, width: u32, script: &str) -> String {
    let answer =
        format!("addEventListener('load', () => setTimeout(() => parent.postMessage(String({script}), '*'), 50));");
    let file = written(&page.replace("</body>", &format!("<script>{answer}</script></body>")));
    let frame = format!(
        "<body><script>addEventListener('message', (event) => {{ const told = document.createElement('output'); \
         told.textContent = event.data; document.body.append(told); }})</script>\
         <iframe src=\"{}\" style=\"width:{width}px;height:800px;border:0\"></iframe></body>",
        file.display()
    );
    let page = dumped(&frame);
    texts(&page, "<output>")
        .first()
        .unwrap_or_else(|| panic!("{name}: no answer"))
        .replace("&gt;", ">")
        .replace("&lt;", "<")
}

fn job(name: &str) -> (Vec<u8>, Vec<String>) {
    let (_, text, printed) = stored::jobs().into_iter().find(|(stored, ..)| stored == name).expect("a job file");
    (text, printed.lines().filter(|&line| line != NAMES).map(str::to_string).collect())
}

/// In a browser: the numbers are there, and a tile is chosen by nothing, by a key, by the mouse.
#[test]
#[ignore = "needs Chromium"]
fn a_browser_loads_the_page() {
    let key = "dispatchEvent(new KeyboardEvent('keydown', { key: 'End' }))";
    let mouse = "document.querySelectorAll('a.choose')[1].click()";
    for name in ["example.job", "clip_that_is_used.job", "nine_kept_carry.job"] {
        let (text, lines) = job(name);
        let page = view::page(name, MANUAL, &text, None);
        for (script, chosen) in [("", 0), (key, lines.len() - 1), (mouse, 1)] {
            let page = loaded(&page, script);
            assert_eq!(texts(&page, "<code class=\"line\">"), lines, "{name}");
            let section = format!("<section class=\"tile chosen\" id=\"tile-{chosen}\">");
            assert!(page.contains(&section), "{name}: tile {chosen} is chosen after {script:?}");
            assert_eq!(page.matches("class=\"tile chosen\"").count(), 1, "{name}: no other is");
            let part = format!("<div class=\"part chosen\" data-tile=\"{chosen}\">");
            let has_words = page.contains(&format!("data-tile=\"{chosen}\">"));
            assert_eq!(page.contains(&part), has_words, "{name}: the words of tile {chosen} are marked");
        }
    }
}

/// The pages that are asked below: rows, a row of a load, frames, a map.
fn pages() -> Vec<(String, String)> {
    let rows = ["example.job", "clip_that_is_used.job", "nine_kept_carry.job", "load_0_16_128.job"];
    let mut pages: Vec<(String, String)> = stored::jobs()
        .into_iter()
        .filter(|(name, ..)| rows.contains(&name.as_str()))
        .map(|(name, text, _)| (format!("{name}.html"), view::page(&name, MANUAL, &text, None)))
        .collect();
    assert_eq!(pages.len(), rows.len(), "each is a job file");
    let file = PathBuf::from(env!("CARGO_MANIFEST_DIR")).join("../../docs/tour/plate/part.outline");
    let figure = text::read(&fs::read_to_string(file).unwrap()).unwrap();
    let segments = figure.segments().unwrap();
    let row = |row: i16| {
        let input = Input::of_figure(&figure, &segments, row);
        let shot = frames::worked(std::slice::from_ref(&input)).remove(0);
        let name = format!("row {row}");
        plate::PlateRow { source: name.clone(), address: format!("row-{row}.html"), name, worked: Ok((input, shot)) }
    };
    let plate: Vec<plate::PlateRow> = (0..figure.rows).map(row).collect();
    pages.push(("plate.html".to_string(), plate::page("part", MANUAL, &plate, true, "")));
    let input = Input::of_figure(&figure, &segments, 2);
    pages.push(("row-2.html".to_string(), view::row_page("row 2", MANUAL, &input, Some("index.html"))));
    pages.push(("history.html".to_string(), histories::page('A', MANUAL).unwrap()));
    pages
}

/// How far the page is wider than its window, and which elements stick out that no scrolling box holds.
const OVERFLOW: &str = "(() => { const wide = document.documentElement.clientWidth; \
    const held = (e) => e.closest('.strip, .row-words, .map'); \
    const out = [...document.body.querySelectorAll('*')].filter((e) => !held(e) && e.getBoundingClientRect().right > wide + 1); \
    return (document.documentElement.scrollWidth - wide) + ' ' + out.slice(0, 3).map((e) => e.tagName + '.' + e.className).join(','); })()";

/// At 390 pixels: nothing sticks out, and all tiles shown or not.
#[test]
#[ignore = "needs Chromium"]
fn a_narrow_page_has_no_overflow() {
    for width in [390, 500, 1_280] {
        for (name, page) in pages() {
            for all in ["", "document.body.classList.add('all');"] {
                let page = page.replace("</body>", &format!("<script>{all}</script></body>"));
                assert_eq!(asked(&name, &page, width, OVERFLOW), "0 ", "{name} at {width} pixels");
            }
        }
    }
}

/// At 390 pixels every tile's line is there and seen when it is chosen, with the same numbers as the row program's.
#[test]
#[ignore = "needs Chromium"]
fn a_narrow_page_has_every_tiles_numbers() {
    let seen = "[...document.querySelectorAll('a.choose')].map((link) => { link.click(); \
        const line = document.querySelector('section.tile.chosen code.line'); const box = line.getBoundingClientRect(); \
        return box.width > 0 && box.right <= innerWidth ? line.textContent : 'hidden'; }).join('|')";
    for name in ["example.job", "clip_that_is_used.job", "nine_kept_carry.job", "keys_1_3_3_3_7.job"] {
        let (text, lines) = job(name);
        let page = view::page(name, MANUAL, &text, None);
        assert_eq!(asked(name, &page, 390, seen).split('|').collect::<Vec<_>>(), lines, "{name}");
    }
}

/// Each pixel's sum, worked by the page's script from what the page holds, has the weight of the library's coverage; by
/// the keyboard the same words come that the mouse brings.
#[test]
#[ignore = "needs Chromium"]
fn the_pages_sums_are_the_librarys() {
    let wrong = "(() => { let all = 0, wrong = 0; for (const plane of document.querySelectorAll('svg.plane')) { \
        const weights = plane.dataset.weights.split(' ').map(Number); \
        for (let at = 0; at < 256; at++) { const { d } = sum(plane, at % 16, at >> 4); all++; \
        if (weight(plane.dataset.rule, d) !== weights[at]) wrong++; } } return wrong + ' of ' + all; })()";
    for (name, page) in pages().into_iter().filter(|(_, page)| page.contains("<svg class=\"plane\"")) {
        let count = 256 * page.matches("<svg class=\"plane\"").count();
        assert_eq!(asked(&name, &page, 390, wrong), format!("0 of {count}"), "{name}");
    }
    let keys = "(() => { const plane = document.querySelector('section.chosen svg.plane'); plane.focus(); \
        for (const key of ['ArrowRight', 'ArrowRight', 'ArrowDown']) \
        plane.dispatchEvent(new KeyboardEvent('keydown', { key, bubbles: true, cancelable: true })); \
        return plane.parentElement.querySelector('.pixel').textContent; })()";
    let (text, _) = job("example.job");
    let page = view::page("example.job", MANUAL, &text, None);
    let told = asked("keys.html", &page, 390, keys);
    assert_eq!(
        told,
        "column 2, row 1: d = 32 × (0 + 16) + 0 = 512. Weight NonZero 512, EvenOdd 512. By its rule, NonZero: coverage 1"
    );
}

/// The keyboard reaches everything: whatever takes a click or scrolls takes the focus, in the order of the page.
#[test]
#[ignore = "needs Chromium"]
fn the_keyboard_reaches_everything() {
    let missed = "(() => { document.body.classList.add('all'); \
        const due = [...document.querySelectorAll('a[href], summary, svg.plane, .strip, .row-words, .map')]; \
        const seen = due.filter((e) => e.getClientRects().length > 0); \
        const missed = seen.filter((e) => { e.focus(); return document.activeElement !== e || e.tabIndex < 0; }); \
        return missed.length + ' of ' + (seen.length > 0); })()";
    for (name, page) in pages() {
        assert_eq!(asked(&name, &page, 390, missed), "0 of true", "{name}");
    }
}

/// Opened at a tile, the page shows the strip, scrolled to it; without a script every tile is shown.
#[test]
#[ignore = "needs Chromium"]
fn a_page_opened_at_a_tile_keeps_the_strip_in_view() {
    let (text, lines) = job("keys_1_3_3_3_7.job");
    let page = view::page("keys", MANUAL, &text, None);
    let seen = "(() => { const box = document.querySelector('a.choose.chosen').getBoundingClientRect(); \
        return document.querySelector('section.chosen').id + ' ' + (box.top >= 0 && box.bottom <= innerHeight && \
        box.left >= 0 && box.right <= innerWidth); })()";
    let at = page.replace("<head>", "<head><script>location.hash = 'tile-7'</script>");
    assert_eq!(asked("at.html", &at, 390, seen), "tile-7 true");
    let plain = page.split("<script>").next().unwrap().to_string() + "</body></html>";
    let shown = "[...document.querySelectorAll('section.tile')].filter((e) => e.getClientRects().length > 0).length";
    assert_eq!(asked("plain.html", &plain, 390, shown), lines.len().to_string());
}
