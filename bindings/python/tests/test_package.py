"""The package as it is found and read: its documentation's examples, the example program, the exception, and the shared object's folder."""
import doctest
import importlib
import os
import pathlib
import pickle
import pkgutil
import shutil
import subprocess
import sys
import tempfile
import unittest

import highvane

PACKAGE = pathlib.Path(highvane.__file__).resolve().parent
ROOT = PACKAGE.parents[2]


def load_tests(loader, tests, pattern):
    """Every module's examples are tests too."""
    for module in (highvane, *(importlib.import_module(f'highvane.{each.name}') for each in pkgutil.iter_modules(highvane.__path__))):
        if doctest.DocTestFinder(exclude_empty=True).find(module):
            tests.addTests(doctest.DocTestSuite(module))
    return tests


class Package(unittest.TestCase):
    def run_python(self, *words, **variables):
        environment = {**os.environ, 'PYTHONPATH': str(PACKAGE.parent), **variables}
        return subprocess.run([sys.executable, '-B', *words], env=environment, capture_output=True, text=True, cwd=ROOT)

    def test_example(self):
        done = self.run_python(str(PACKAGE.parent / 'examples/score.py'))
        self.assertEqual((done.stdout, done.stderr), ((ROOT / 'examples/score.out').read_text(), ''))

    def test_all_is_documented(self):
        for name in highvane.__all__:
            thing = getattr(highvane, name)
            self.assertTrue(isinstance(thing, int) or thing.__doc__, name)

    def test_refused_keeps_its_refusal(self):
        refused = pickle.loads(pickle.dumps(highvane.Refused(14)))
        self.assertIs(refused.refusal, highvane.Refusal.NO_SUCH_ROW)
        self.assertEqual(str(refused), 'refusal 14: the store has no row of that number')
        self.assertRaises(ValueError, highvane.Refused, max(highvane.Refusal) + 1)

    def test_folder_of_the_shared_object(self):
        with tempfile.TemporaryDirectory() as name:
            folder = pathlib.Path(name)
            missing = self.run_python('-c', 'import highvane', HIGHVANE_LIB=name)
            self.assertIn(f'ImportError: {folder}/libhighvane.so is not there: tools/archive --shared makes it', missing.stderr)
            (folder / 'libhighvane.so').write_bytes(b'no shared object')
            damaged = self.run_python('-c', 'import highvane', HIGHVANE_LIB=name)
            self.assertIn(f'ImportError: {folder}/libhighvane.so cannot be loaded', damaged.stderr)
            shutil.copy(highvane.raw.FOLDER / 'libhighvane.so', folder)
            copied = self.run_python('-c', 'import highvane; print(highvane.table_product(3, 3))', HIGHVANE_LIB=name)
            self.assertEqual((copied.stdout, copied.stderr), ('8\n', ''))

    def test_shared_object_of_another_version(self):
        names = [name for name in vars(highvane.raw) if name.startswith('highvane_') and name != 'highvane_score_row']
        shorter = """struct { long long sums[3]; unsigned long long counts[2]; unsigned refusal; } answer = {{0}, {0}, 1};
        __typeof__(answer) highvane_score_row(void) { return answer; }"""
        for left_out, problem in [(0, 'its report has other fields'), (1, f'it has no {names[0]}')]:
            with self.subTest(problem), tempfile.TemporaryDirectory() as folder:
                code = shorter + ''.join(f'void {name}(void) {{}}' for name in names[left_out:])
                command = ['gcc', '-shared', '-fPIC', '-x', 'c', '-', '-o', f'{folder}/libhighvane.so']
                subprocess.run(command, input=code, text=True, check=True)
                found = self.run_python('-c', 'import highvane', HIGHVANE_LIB=folder)
                self.assertIn(f'ImportError: libhighvane.so in {folder} is of another version: {problem}', found.stderr)
