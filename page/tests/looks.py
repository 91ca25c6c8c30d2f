"""How the page is for a reader of the screen, by keys, on a phone and in the dark, and what its content security policy lets through."""
from stage import OTHER_AREA, STATE, expect, expect_that

# The roles of what a user operates.
CONTROLS = ("textbox", "button", "switch", "slider", "spinbutton", "checkbox", "link", "combobox")
# What a reader of the screen meets on the board of the tests, in this order.
TREE = [
    ("heading", "Party"), ("button", "Undo"), ("button", "Redo"), ("button", "Menu"), ("button", "Close"), ("main", ""), ("region", "Party"), ("heading", "Party"), ("button", "Copy Notes"), ("textbox", "Notes"), ("group", "Who brings what"),
    ("button", "Copy Who brings what"), ("list", "Who brings what"), ("button", "Move buy bread"), ("textbox", "Item of Who brings what"), ("button", "Delete buy bread"), ("button", "Move call Ann"), ("textbox", "Item of Who brings what"), ("button", "Delete call Ann"),
    ("textbox", "Add to Who brings what"), ("button", "Add the item to Who brings what"), ("switch", "Everything is paid"), ("slider", "Guests"), ("spinbutton", "Guests, as a number"), ("region", "Later"),
    ("heading", "Later"), ("button", 'Copy More "notes"'), ("textbox", 'More "notes"'), ("slider", "Slider 2"), ("spinbutton", "Slider 2, as a number"),
]
ROLES = {it for it, _ in TREE} | set(CONTROLS)
# The least contrast of text, and of the edge of a control, as the guidelines WCAG 2.2 at level AA have them. So is the least size of a control.
TEXT_CONTRAST, EDGE_CONTRAST, LEAST_SIZE = 4.5, 3, 24
# Each text, and each edge of a control, with a contrast that is too low.
FAINT = """(() => {
  const numbers = (color) => color.match(/[\\d.]+/g).map(Number);
  const light = (color) => numbers(color).slice(0, 3).map((it) => it / 255).map((it) => (it <= 0.04045 ? it / 12.92 : ((it + 0.055) / 1.055) ** 2.4))
    .reduce((sum, it, at) => sum + it * [0.2126, 0.7152, 0.0722][at], 0);
  const contrast = (one, other) => { const [low, high] = [light(one), light(other)].sort((a, b) => a - b); return (high + 0.05) / (low + 0.05); };
  const ground = (it) => { while (it && numbers(getComputedStyle(it).backgroundColor)[3] === 0) it = it.parentElement; return getComputedStyle(it ?? document.body).backgroundColor; };
  const found = [];
  const test = (what, one, other, least) => { if (contrast(one, other) < least) found.push(`${what}: ${contrast(one, other).toFixed(2)}`); };
  for (const it of document.querySelectorAll('body *')) {
    if (!it.checkVisibility() || it.matches('.unseen, script')) continue;
    const isControl = it.matches('textarea, input, button');
    const hasText = (isControl && !it.matches('[type=range], [type=checkbox]')) || [...it.childNodes].some((node) => node.nodeType === Node.TEXT_NODE && node.data.trim());
    const name = it.tagName + '.' + (it.className || it.id || it.type);
    if (hasText) test('text of ' + name, getComputedStyle(it).color, ground(it), %g);
    if (it.placeholder) test('placeholder of ' + name, getComputedStyle(it, '::placeholder').color, ground(it), %g);
    if (isControl && it.type !== 'range') test('edge of ' + name, getComputedStyle(it).borderTopColor, ground(it.parentElement), %g);
  }
  return found;
})()""" % (TEXT_CONTRAST, TEXT_CONTRAST, EDGE_CONTRAST)
SMALL = """[...document.querySelectorAll('textarea, input, button')].filter((it) => it.checkVisibility()).map((it) => [it, it.getBoundingClientRect()])
  .filter(([, box]) => box.width < %d || box.height < %d).map(([it]) => it.outerHTML)""" % (LEAST_SIZE, LEAST_SIZE)
# What a page under attack might do, each of which the policy has to stop.
ATTACKS = """(async () => {
  const stopped = [];
  document.addEventListener('securitypolicyviolation', (event) => stopped.push(event.effectiveDirective));
  const script = document.createElement('script');
  script.textContent = 'window.isBroken = true';
  document.body.append(script);
  const button = document.createElement('button');
  button.setAttribute('onclick', 'window.isBroken = true');
  button.setAttribute('style', 'color: red');
  document.body.append(button);
  button.click();
  const image = new Image();
  image.src = 'http://127.0.0.1:9/';
  await fetch('http://127.0.0.1:9/').catch(() => {});
  const form = document.createElement('form');
  form.action = 'http://127.0.0.1:9/';
  document.body.append(form);
  form.submit();
  const base = document.createElement('base');
  base.href = 'http://127.0.0.1:9/';
  document.head.append(base);
  // A busy machine is given time to tell of all seven.
  for (let round = 0; round < 3 || (round < 100 && new Set(stopped).size < 7); round += 1) await new Promise((done) => setTimeout(done, 100));
  button.remove(); form.remove(); script.remove();
  return [window.isBroken ?? false, [...new Set(stopped)].sort()];
})()"""
STOPPED = ["base-uri", "connect-src", "form-action", "img-src", "script-src-attr", "script-src-elem", "style-src-attr"]


def tree(tab):
    """The roles and names of what a reader of the screen meets."""
    for node in tab.call("Accessibility.getFullAXTree")["nodes"]:
        role = node.get("role", {}).get("value", "")
        if not node["ignored"] and role in ROLES:
            yield role, node.get("name", {}).get("value", "")


def roles_and_names(stage):
    tab = stage.a
    expect(sorted(tree(tab)), sorted(TREE), "the roles and names of the page")
    expect_that(all(name for role, name in tree(tab) if role in CONTROLS), "each control has a name")
    expect(tab.run("[document.documentElement.lang, document.title !== '']"), ["en", True], "the language and the title")


def focus_order(stage):
    """Tab goes through all controls in the order of the page, each with a ring around it, and then leaves the page."""
    tab = stage.a
    tab.open(stage.server.url)
    tab.until(f"{STATE} === 'open'")
    count = tab.run("window.controls = [...document.querySelectorAll('textarea, input, button')].filter((it) => it.checkVisibility()), controls.length")
    for at in range(count):
        tab.press("Tab")
        expect(tab.run("controls.indexOf(document.activeElement)"), at, "the control with the focus")
        expect(tab.run("getComputedStyle(document.activeElement).outlineStyle"), "solid", "the ring around it")
    tab.press("Tab")
    expect(tab.run("controls.indexOf(document.activeElement)"), -1, "the control with the focus after the last")


def in_light_and_dark(stage):
    for scheme in ("light", "dark"):
        stage.a.call("Emulation.setEmulatedMedia", features=[{"name": "prefers-color-scheme", "value": scheme}])
        stage.picture(stage.a, scheme)
        expect(stage.a.run(FAINT), [], f"what is too faint in {scheme}")
    ground = stage.a.run("getComputedStyle(document.body).backgroundColor")
    expect_that(all(int(it) < 60 for it in ground[4:-1].split(",")), f"the ground is dark: {ground}")


def on_a_phone(stage):
    tab = stage.a
    tab.call("Emulation.setEmulatedMedia", features=[])
    tab.call("Emulation.setDeviceMetricsOverride", width=320, height=640, deviceScaleFactor=2, mobile=True)
    tab.until("document.documentElement.clientWidth === 320")
    expect(tab.run("[document.documentElement.scrollWidth, innerWidth]"), [320, 320], "the width of what is shown")
    expect(tab.run(SMALL), [], "what is too small for a finger")
    stage.picture(tab, "phone")
    tab.click(OTHER_AREA)
    tab.type("from a phone")
    stage.b.until(f"{OTHER_AREA}.value === 'from a phone'")
    tab.call("Emulation.clearDeviceMetricsOverride")


def without_motion(stage):
    stage.b.call("Emulation.setEmulatedMedia", features=[{"name": "prefers-reduced-motion", "value": "reduce"}])
    stage.b.until("document.getAnimations().length === 0")
    stage.a.click("document.querySelector('[role=switch]')")
    stage.b.until("document.querySelector('[role=switch]').checked")
    expect(stage.b.run("document.getAnimations().length"), 0, "what moves")
    stage.b.call("Emulation.setEmulatedMedia", features=[])
    stage.a.click("document.querySelector('[role=switch]')")
    stage.b.until("document.getAnimations().length > 0")


def under_its_policy(stage):
    """In a tab of its own, since the attacks are in its log."""
    tab = stage.browser.tab()
    tab.open(stage.server.url)
    tab.until(f"{STATE} === 'open'")
    expect(list(tab.complaints()), [], "the browser's log before the attacks")
    is_broken, stopped = tab.run(ATTACKS)
    expect([is_broken, stopped], [False, STOPPED], "whether an attack ran, and what the policy stopped")
    expect(tab.run("performance.getEntriesByType('resource').map((it) => new URL(it.name).host).filter((it) => it !== location.host && it !== '127.0.0.1:9')"), [], "requests to elsewhere")
    tab.call("Page.close")


PARTS = {
    "each control has its role and its name": roles_and_names,
    "Tab goes through the page in order": focus_order,
    "contrast in light and in the dark": in_light_and_dark,
    "a narrow screen": on_a_phone,
    "no motion for those who want none": without_motion,
    "the content security policy holds": under_its_policy,
}
