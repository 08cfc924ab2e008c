// Shows what the address names. All other modules are loaded after the first paint.

const ROUTES = [
    [/^\/$/, "./today.js"],
    [/^\/loans\/(\d+)$/, "./loan.js"],
    [/^\/loans\/(\d+)\/([a-z]+)$/, "./booking.js"],
    [/^()\/(day|board|close|remit)$/, "./booking.js"],
    [/^\/late$/, "./late.js"],
    [/^\/month$/, "./month.js"],
    [/^\/months\/(\d{4}-\d{2})\/(report|trial)$/, "./report.js"],
    [/^\/custody$/, "./custody.js"],
    [/^\/(commands|keys)\/([^/]+)$/, "./command.js"],
];

const main = document.getElementById("main");
let latest = 0;

/** The parts of an address: its path and its fields. */
function place() {
    const [path, fields = ""] = location.hash.slice(1).split("?");
    return { path: path || "/", query: new URLSearchParams(fields) };
}

async function view() {
    const { path, query } = place();
    for (const [pattern, module] of ROUTES) {
        const found = pattern.exec(path);
        if (found) {
            return (await import(module)).view({ parts: found.slice(1), path, query });
        }
    }
    throw new Error(`No page has the address ${path}.`);
}

/** Shows the view of the address, unless another one was asked for meanwhile. */
async function show(moves) {
    const turn = ++latest;
    main.setAttribute("aria-busy", "true");
    const frame = await import("./frame.js").catch(() => null);
    if (frame === null) {
        main.textContent = "The page's files do not come. Load the page again.";
        return;
    }
    const day = frame.header();
    const shown = await view().catch(frame.failure);
    if (turn !== latest) {
        return;
    }
    document.title = `${shown.title} – Jaqhendulu desk`;
    main.replaceChildren(...shown.content);
    await day;
    main.setAttribute("aria-busy", "false");
    if (moves) {
        (main.querySelector("h1") ?? main).focus();
        scrollTo(0, 0);
    }
}

addEventListener("hashchange", () => place().path.startsWith("/") && show(true));

document.querySelector(".skip").addEventListener("click", (event) => {
    event.preventDefault();
    main.focus();
});

document.getElementById("find").addEventListener("submit", (event) => {
    event.preventDefault();
    const to = `#/loans/${event.target.loan.value}`;
    event.target.reset();
    if (location.hash === to) {
        show(true);
    } else {
        location.hash = to;
    }
});

/** Goes on once the page was painted for the first time; in a window that is not seen, after a while. */
function afterPaint(goOn) {
    let isDone = false;
    const once = () => {
        if (!isDone) {
            isDone = true;
            goOn();
        }
    };
    new PerformanceObserver((list) => list.getEntriesByName("first-contentful-paint").length && once())
        .observe({ type: "paint", buffered: true });
    setTimeout(once, 1000);
}

afterPaint(() => {
    const icon = document.createElement("link");
    Object.assign(icon, { rel: "icon", type: "image/svg+xml", href: "icon.svg" });
    document.head.append(icon);
    show();
});
