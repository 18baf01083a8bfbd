"""The command `barleychime`, run as a person would."""

import os
import subprocess


class Command:
    def __init__(self, program):
        self.program = program

    @classmethod
    def built(cls, root, library):
        """Built for release over this archive."""
        build = root / 'host/command'  # where cargo finds the setting that takes Debian's crates
        subprocess.run(['cargo', 'build', '--release', '--offline', '--quiet'], cwd=build, check=True,
                       env={**os.environ, 'BARLEYCHIME_LIB': str(library)})
        return cls(build / 'target/release/barleychime')

    def run(self, *arguments, given=b''):
        """Exit status, output as bytes, and remarks as text."""
        done = subprocess.run([self.program, *arguments], input=given, capture_output=True, timeout=300)
        return done.returncode, done.stdout, done.stderr.decode()

    def text(self, *arguments, given=b''):
        status, output, remarks = self.run(*arguments, given=given)
        return status, output.decode(), remarks
