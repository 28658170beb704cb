"""How mend ends: its four exit statuses, and the one way to end early."""

LIST, NO_LIST, REFUSED, UNABLE = range(4)
# LIST     a list was found, also the empty one
# NO_LIST  refused by solving: no list works, or none within the limit
# REFUSED  the file is refused
# UNABLE   wrong use, input that can't be read, output that can't be written


class Stop(Exception):
    """Ends mend with a status; each line goes to standard error."""

    def __init__(self, status, *lines):
        super().__init__(*lines)
        self.status, self.lines = status, lines
