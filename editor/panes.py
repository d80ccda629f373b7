"""The parts of a terminal's screen: lines under a heading, without what would move the cursor."""
import curses

# The colours of what comes next.
NEXT = 1


def plain(text):
    """A text that takes one place of the screen for each character, and moves no cursor."""
    return "".join(it if it.isprintable() else " " if it == "\t" else "?" for it in text)


def colour():
    """The colour of what comes next, on a terminal that has any."""
    return curses.color_pair(NEXT) if curses.has_colors() else curses.A_NORMAL


class Pane:
    """A part of the screen with a heading: lines, of which one comes next and some are marked."""

    def __init__(self, screen, top, left, height, width):
        self.screen, self.top, self.left, self.height, self.width = screen, top, left, height, width

    def draw(self, title, lines, here=None, cursor=None, marks=()):
        """Lines as texts, scrolled to the cursor or to what comes next."""
        if self.height < 2 or self.width < 4:
            return
        self.put(0, f" {title} ".ljust(self.width - 1, " "), curses.A_REVERSE)
        wanted = cursor if cursor is not None else here
        room = self.height - 1
        first = max(0, min((wanted or 0) - room // 2, len(lines) - room))
        for row in range(room):
            number = first + row
            text = lines[number] if number < len(lines) else ""
            sign = "●" if number in marks else "▶" if number == here else " "
            style = curses.A_BOLD | colour() if number == here and number < len(lines) else curses.A_NORMAL
            if number == cursor and cursor is not None:
                style |= curses.A_UNDERLINE
            self.put(row + 1, f"{sign}{text}"[:self.width - 1].ljust(self.width - 1), style)

    def put(self, row, text, style):
        try:
            self.screen.addstr(self.top + row, self.left, plain(text), style)
        except curses.error:
            pass
