"""What goes wrong outside of the program's own answers: a sentence for the user and a status for the shell."""

# sysexits' numbers
WRONG_WORDS = 64
BAD_DATA = 65
NO_INPUT = 66
MISSING = 69
ENDED = 70
NO_OUTPUT = 73
TOO_LATE = 75


START = 'bukshena: '


class Fault(Exception):
    """With `sentence`, one line for the user that begins with `bukshena: `, and `status`, the exit status."""

    def __init__(self, status, sentence):
        super().__init__(sentence)
        self.status = status
        self.sentence = sentence if sentence.startswith(START) else START + sentence

    def about(self, name, advice=''):
        """The same fault, that names a file."""
        return Fault(self.status, f'{name}: {self.sentence[len(START):]}{advice}')
