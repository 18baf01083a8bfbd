"""Counts checks: a failure is printed when it happens, a group when it ends, and the whole count at the end."""
import collections

MOST_PRINTED = 20


class Tally:
    def __init__(self):
        self.passed = self.failed = 0
        self.group_began = 0
        self.refusals = set()
        self.kinds = collections.Counter()

    def same(self, what, got, due):
        if got == due:
            self.passed += 1
            return
        self.failed += 1
        if self.failed <= MOST_PRINTED:
            print(f'FAILED {what}: {str(got)[:300]}, due {str(due)[:300]}')

    def met(self, answer):
        """Remembers which refusals were ever reached."""
        if answer[0] == 'refused':
            self.refusals.add(answer[1])
        return answer

    def kind(self, *names):
        """Counts an answer by its kinds, so that the test can ask whether it has met enough of each."""
        self.kinds.update(names)

    def enough(self, kinds, least):
        for kind in kinds:
            self.same(f'at least {least} of kind {kind}', self.kinds[kind] >= least, True)

    def group(self, title, note=''):
        checks = self.passed + self.failed - self.group_began
        self.group_began += checks
        print(f'{title}: {checks} checks{note}')

    def end(self):
        """Prints the last line of a part of the gate; the exit status. A part that checked nothing has failed."""
        failed = self.failed or not self.passed
        print(f'{self.passed} passed, {int(failed) if not self.failed else self.failed} failed')
        return 1 if failed else 0
