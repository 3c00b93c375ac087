//! The picture in a real browser, Debian's chromium, without a window. Where none is
//! on the PATH nothing is tried, and `check.sh` says so; with CI=true that is a
//! failure.

mod tool;

use std::process::{Command, Stdio};
use tool::{fed, run, Folder};

/// Whether there is a browser.
fn is_there() -> bool {
    let mut command = Command::new("sh");
    let found = command.args(["-c", "command -v chromium"]).output();
    let found = found.is_ok_and(|output| output.status.success());
    let ci = std::env::var("CI").is_ok_and(|ci| ci == "true");
    assert!(found || !ci, "there is no chromium on this machine");
    if !found {
        println!("LEFT OUT: there is no chromium on this machine");
    }
    found
}

/// The page as it is once its script has run, with a script of ours behind it; None
/// where there is no browser.
fn browsed(page: &str, script: &str) -> Option<String> {
    if !is_there() {
        return None;
    }
    let folder = Folder::new();
    let page = page.replace(
        "</html>",
        &format!("<script>\n{script}\n</script>\n</html>"),
    );
    let file = folder.write("run.html", page.as_bytes());
    let output = Command::new("timeout")
        .args(["120", "chromium", "--headless", "--no-sandbox"])
        .args(["--disable-gpu", "--disable-dev-shm-usage", "--dump-dom"])
        .arg("--window-size=1200,900")
        .arg(format!("--user-data-dir={}", folder.name("profile")))
        .arg(format!("file://{file}"))
        .stdin(Stdio::null())
        .output()
        .expect("timeout starts");
    let said = String::from_utf8_lossy(&output.stderr);
    assert!(output.status.success(), "{:?}: {said}", output.status);
    Some(String::from_utf8(output.stdout).expect("text"))
}

/// What the element of the words has.
fn words(document: &str) -> &str {
    let (_, after) = document.split_once("<pre id=\"words\">").expect("words");
    after.split("</pre>").next().expect("an end")
}

fn story() -> String {
    let words = [
        "view",
        "examples/three-renters.log",
        "renters=examples/three-renters.renters",
    ];
    run(&words).out
}

/// What a user does: a click or a move at the middle of what is seen there.
const HAND: &str = "
function at(x, y, sort) {
  const options = { bubbles: true, clientX: x, clientY: y };
  document.elementFromPoint(x, y).dispatchEvent(new MouseEvent(sort, options));
}
function atBar(nth, sort) {
  const box = document.querySelector('rect[data-bar=\"' + nth + '\"]').getBoundingClientRect();
  at(box.left + 3, box.top + box.height / 2, sort);
}
";

/// As many bars as the log has accepted creations.
#[test]
fn bars() {
    let script = "document.getElementById('words').textContent =
        'bars: ' + document.querySelectorAll('.bar').length;";
    if let Some(document) = browsed(&story(), script) {
        assert_eq!(words(&document), "bars: 23");
    }
}

/// The kernel of event 30 is the 17th creation.
#[test]
fn a_click_on_a_bar() {
    let due = "created by event 30: combined vpid=0x5 pcid=0x1 global=0x1 span=0x1 \
               page=0xffff81000 frame=0x5200 ep4ta=0x100\n\
               left by event 31, wrong PCID: mov-to-cr3 pcid=0x2\n\
               left by event 34, spared as global: invvpid type=0x3 vpid=0x5 address=0x0\n\
               left by event 41, wrong VPID: invlpg address=0x400000\n\
               left by event 43, wrong VPID: invvpid type=0x1 vpid=0x6 address=0x0\n\
               left by event 44, wrong EP4TA: invept type=0x1 eptp=0x20001e\n\
               found at event 45: carl can use this mapping of anna\n\
               in force at the end";
    if let Some(document) = browsed(&story(), &format!("{HAND}atBar(16, 'click');")) {
        assert_eq!(words(&document), due);
        assert_eq!(document.matches("bar held found chosen").count(), 1);
    }
    // It holds, wherever the pointer goes then; a click beside it lets it go.
    let script = format!("{HAND}atBar(16, 'click'); atBar(0, 'mousemove');");
    if let Some(document) = browsed(&story(), &script) {
        assert_eq!(words(&document), due);
    }
    let script = format!(
        "{HAND}atBar(16, 'click');
        document.getElementById('run').dispatchEvent(new MouseEvent('click'));
        atBar(15, 'mousemove');"
    );
    if let Some(document) = browsed(&story(), &script) {
        let due = "created by event 29: combined vpid=0x5 pcid=0x1 global=0x0 span=0x0 \
                   page=0x400 frame=0x5110 ep4ta=0x100\n\
                   dropped by event 34, in scope: invvpid type=0x3 vpid=0x5 address=0x0";
        assert_eq!(words(&document), due);
    }
}

#[test]
fn an_event_in_the_strip() {
    let script = format!(
        "{HAND}
        const strip = document.getElementById('strip').getBoundingClientRect();
        at(strip.left + 45.5 * data.step, strip.top + 20, 'mousemove');"
    );
    if let Some(document) = browsed(&story(), &script) {
        let due = "event 45: entry vpid=0x5 ept=0x10001e pcid=0x1 cpl=0x0\naccepted";
        assert_eq!(words(&document), due);
    }
}

/// Logs of 65,536 bytes stay quick: the page is drawn, and a click answered.
#[test]
fn a_large_log() {
    let mut text = String::new();
    for page in 0..3_855 {
        text += &format!(
            "linear vpid=0x0 pcid=0x0 global=0x0 span=0x0 page={page:#x} frame={page:#x}\n"
        );
    }
    let page = fed(&["view", "-"], text.as_bytes()).out;
    let script = format!(
        "{HAND}
        const start = performance.now();
        atBar(3, 'click');
        const shown = document.getElementById('words').textContent;
        const quick = performance.now() - start < 1000 && start < 20000;
        document.getElementById('words').textContent = shown + (quick ? ', quick' : ', slow');"
    );
    if let Some(document) = browsed(&page, &script) {
        let due = "created by event 4: linear vpid=0x0 pcid=0x0 global=0x0 span=0x0 page=0x3 \
                   frame=0x3\nin force at the end, quick";
        assert_eq!(words(&document), due);
    }
    // The strip of events stays in sight, in front of the bars.
    let script = format!(
        "{HAND}
        const main = document.querySelector('main');
        main.scrollTop = 5000;
        main.dispatchEvent(new Event('scroll'));
        const box = main.getBoundingClientRect();
        at(box.left + 1000.5 * data.step, box.top + 20, 'mousemove');"
    );
    if let Some(document) = browsed(&page, &script) {
        let due = "event 1000: linear vpid=0x0 pcid=0x0 global=0x0 span=0x0 page=0x3e7 \
                   frame=0x3e7\naccepted";
        assert_eq!(words(&document), due);
    }
}
