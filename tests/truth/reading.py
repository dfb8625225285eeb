"""What a person reads of an audit on the page: the blocks of its article, each with the name of its place."""
from html.parser import HTMLParser

BLOCKS = {"p", "li", "td", "th", "h1", "h2", "h3", "pre", "figcaption", "desc", "text", "title", "output"}


class Page(HTMLParser):
    """The blocks of each article, by its heading's text: the place (a class, or the label of a cell), and the text."""

    def __init__(self, text: str):
        super().__init__()
        self.articles: list[list[tuple[str, str]]] = []
        self.rows: list[list[tuple[str, str]]] = []
        self.now: list[tuple[str, str]] = []
        self.place, self.words, self.list = "", "", ""
        self.feed(text)
        self.close()

    def handle_starttag(self, tag: str, attributes: list[tuple[str, str | None]]) -> None:
        given = dict(attributes)
        if tag == "article":
            self.now = []
            self.articles.append(self.now)
        elif tag == "tbody" and (given.get("class") or "").startswith("of-"):
            self.now = []
            self.rows.append(self.now)
        if tag == "ul":
            self.list = given.get("class") or ""
        if tag == "br":
            self.put()
        elif tag in BLOCKS:
            self.put()
            self.place = given.get("data-label") or ".".join(filter(None, [
                tag, self.list if tag == "li" else given.get("class")]))

    def handle_endtag(self, tag: str) -> None:
        if tag in BLOCKS:
            self.put()
            self.place = ""

    def handle_data(self, words: str) -> None:
        self.words += words

    def put(self) -> None:
        text = " ".join(self.words.replace("\u2212", "-").split())
        if text and self.place:
            self.now.append((self.place, text))
        self.words = ""
