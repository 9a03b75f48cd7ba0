"""What browsers make of documents: where each has put the characters, and a screenshot."""
import http.server
import json
import pathlib
import subprocess
import tempfile
import threading

# Images are shown this many times as large.
SCALE = 2
SECONDS = 300
# What is between one image and the next, and the height of a frame.
GAP, HEIGHT = 10, 1000
TYPES = {'.svg': 'image/svg+xml', '.html': 'text/html; charset=utf-8', '.js': 'text/javascript'}
SCRIPT = pathlib.Path(__file__).with_name('positions.js')
HEAD = '<!DOCTYPE html>\n<meta charset="utf-8">\n<script src="positions.js"></script>\n<body style="margin: 0">\n'
FRAME = '<iframe src="%s" style="position: absolute; left: 0; top: %dpx; width: 1200px; height: 1000px; border: 0"></iframe>\n'
IMAGE = '<img src="%s" style="position: absolute; left: 0; top: %dpx; width: %dpx">\n'


def chromium(folder, url, image, size):
    """The command by which Chromium shows a page once."""
    return ['chromium', '--headless', '--no-sandbox', '--disable-gpu', '--hide-scrollbars', '--user-data-dir=%s' % folder,
            '--window-size=%d,%d' % size, '--screenshot=%s' % image, url]


def firefox(folder, url, image, size):
    """The command by which Firefox shows a page once."""
    return ['firefox-esr', '--headless', '--no-remote', '--profile', folder, '--window-size=%d,%d' % size, '--screenshot', image, url]


BROWSERS = {'chromium': chromium, 'firefox-esr': firefox}


class Site(http.server.ThreadingHTTPServer):
    """The files of a page on this machine, and what the page sends back."""

    def __init__(self, files):
        super().__init__(('127.0.0.1', 0), Answer)
        self.files, self.sent = files, None
        threading.Thread(target=self.serve_forever, daemon=True).start()


class Answer(http.server.BaseHTTPRequestHandler):
    """The answer to one request."""

    def do_GET(self):
        content = self.server.files.get(self.path.lstrip('/'))
        self.send_response(404 if content is None else 200)
        self.send_header('Content-Type', TYPES.get(pathlib.PurePath(self.path).suffix, 'text/plain'))
        self.end_headers()
        self.wfile.write(content or b'')

    def do_POST(self):
        self.server.sent = json.loads(self.rfile.read(int(self.headers['Content-Length'])))
        self.send_response(204)
        self.end_headers()

    def log_message(self, *_):
        pass


class Documents:
    """SVG documents, by their paths, with the width of each, and the height in a screenshot at which it begins; and a document in HTML."""

    def __init__(self, paths, sizes, page):
        self.paths, self.page = paths, page
        self.widths = [width for width, _ in sizes]
        heights = [height + GAP for _, height in sizes]
        self.tops = [sum(heights[:at]) for at in range(len(heights))]
        self.size = (SCALE * max(self.widths), SCALE * sum(heights))


def page(documents):
    """A page that has each SVG document as an image, SCALE times as large, and as a frame, and the document in HTML as the last frame."""
    names = [path.name for path in documents.paths]
    shown = [IMAGE % (name, SCALE * top, SCALE * width) for name, top, width in zip(names, documents.tops, documents.widths)]
    frames = [FRAME % (name, documents.size[1] + HEIGHT * at) for at, name in enumerate([*names, documents.page.name])]
    return (HEAD + ''.join(shown + frames)).encode()


def screenshot(browser, url, size):
    """Has a browser show a page: the bytes of its screenshot, or None, and the errors that the browser printed."""
    with tempfile.TemporaryDirectory(ignore_cleanup_errors=True) as folder:
        image = pathlib.Path(folder, 'image.png')
        ran = subprocess.run(BROWSERS[browser](folder, url, image, size), stdin=subprocess.DEVNULL, capture_output=True, timeout=SECONDS)
        return image.read_bytes() if image.exists() else None, ran.stderr.decode(errors='replace')


def show(browser, documents):
    """Has a browser show documents: what `positions.js` sends, and the bytes of a screenshot of the images."""
    files = {path.name: path.read_bytes() for path in [*documents.paths, documents.page, SCRIPT]}
    files['page.html'] = page(documents)
    with Site(files) as site:
        image, errors = screenshot(browser, 'http://127.0.0.1:%d/page.html' % site.server_port, documents.size)
        site.shutdown()
    assert site.sent and image, '%s shows no page: %s' % (browser, errors[-600:])
    assert 'error' not in site.sent, '%s: %s' % (browser, site.sent['error'])
    return site.sent, image
