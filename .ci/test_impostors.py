"""Tests of what keeps the impostors of one edit file apart (.ci/impostors.py, .ci/refusals)."""
import importlib.machinery
import importlib.util
import os
import sys
import tempfile
import unittest

sys.dont_write_bytecode = True
HERE = os.path.dirname(os.path.abspath(__file__))
sys.path.insert(0, HERE)

loader = importlib.machinery.SourceFileLoader('refusals', os.path.join(HERE, 'refusals'))
refusals = importlib.util.module_from_spec(importlib.util.spec_from_loader('refusals', loader))
loader.exec_module(refusals)
impostors = refusals.impostors

CODE = '''// A crate of three functions.
const LEAST: u8 = 1;

const MOST: u8 = 9;

fn low(x: u8) -> bool
    ensures { λ r. ⌜ r ≡ ltb x 1 ⌝ }
{
    x < LEAST
}

fn high(x: u8) -> bool
    ensures { λ r. ⌜ r ≡ ltb 9 x ⌝ }
{
    x > MOST
}

pub fn out(x: u8) -> bool {
    if low(x) {
        return true;
    }
    high(x) | (x == MOST)
}
'''
LOW = '''# impostor low_off: one more is low
# refused: src/lib.rt low
file: src/lib.rt
old: x < LEAST
new: x <= LEAST
'''
HIGH = '''# impostor high_off: one more is high
# refused: proofs/high/Proof.antt high-spec
file: src/lib.rt
old: x > MOST
new: x >= MOST
'''
LOG = '''%s/proofs/high/Proof.antt:9:1: error: `high-spec`: `search`: no proof of this
%s/proofs/out/Proof.antt:7:1: error: `out-spec`: `closed` was not admitted, so this cannot be checked
note: src/lib.rt:6:1: it is not proved that what the function ensures holds
'''


class Apart(unittest.TestCase):
    def faults(self, text, log=LOG):
        """What is wrong with an edit file of this text whose try left this log."""
        with tempfile.TemporaryDirectory() as root:
            os.chdir(root)
            tried = os.path.join(os.getcwd(), 'target/must-fail/one/code')
            for folder in ('crates/one/src', 'crates/one/specs', 'crates/one/proofs', 'crates/one/must-fail', tried + '/src'):
                os.makedirs(folder)
            for path, words in (('crates/one/src/lib.rt', CODE), (tried + '/src/lib.rt', CODE), (tried + '/.log', log.replace('%s', tried)),
                                ('crates/one/specs/Low.antt', 'low = 1\n'), ('crates/one/proofs/Low.antt', 'low = 1\n'), ('crates/one/must-fail/code.edit', text)):
                with open(path, 'w', encoding='utf-8') as file:
                    file.write(words)
            found = [fault for edit in impostors.edits('.') for fault in refusals.check(edit)]
            os.chdir(HERE)
            return found

    def wrong(self, text, words, log=LOG):
        found = self.faults(text, log)
        self.assertTrue(any(words in fault for fault in found), found)

    def test_apart(self):
        self.assertEqual(self.faults(LOW + '\n' + HIGH), [])

    def test_one_function(self):
        other = HIGH.replace('high_off', 'high_always').replace('x > MOST', 'x > MOST ').replace('high-spec', 'other')
        self.wrong(HIGH + '\n' + other.replace('old: x > MOST ', 'old: x > MOST'), 'change one function: high')

    def test_definition(self):
        self.wrong(LOW + '\n# impostor defined: low\n# refused: src/lib.rt high\nfile: specs/Low.antt\nold: 1\nnew: 2\n', 'changes a definition')

    def test_proof(self):
        self.wrong('# impostor proved: low\n# refused: proofs/Low.antt low\nfile: proofs/Low.antt\nold: 1\nnew: 2\n', 'neither code nor a definition')

    def test_contract(self):
        promise = '# impostor promise: low\n# refused: src/lib.rt low\nfile: src/lib.rt\nold: ltb x 1\nnew: ltb x 2\n'
        self.wrong(promise, 'changes a contract')
        self.wrong(promise + '\n' + HIGH, 'changes what no function body has')

    def test_constant(self):
        least = LOW.replace('x < LEAST', 'LEAST: u8 = 1').replace('x <= LEAST', 'LEAST: u8 = 2')
        self.assertEqual(self.faults(least + '\n' + HIGH), [])
        most = HIGH.replace('x > MOST', 'MOST: u8 = 9').replace('x >= MOST', 'MOST: u8 = 8')
        self.wrong(LOW + '\n' + most, 'constant with other users: MOST')

    def test_old_text(self):
        self.wrong(LOW + '\n' + HIGH.replace('old: x > MOST', 'old: MOST'), 'an old text that stands')

    def test_place_of_another(self):
        self.wrong(LOW.replace('src/lib.rt low', 'src/lib.rt high') + '\n' + HIGH, 'of no function that it changes')

    def test_places_missing(self):
        self.wrong(LOW.replace('# refused: src/lib.rt low\n', ''), 'lacks its words or its one place')
        self.wrong('# low\nfile: src/lib.rt\nold: x < LEAST\nnew: x <= LEAST\n', 'is not a list of impostors')

    def test_not_refused(self):
        self.wrong(LOW + '\n' + HIGH, 'high_off is not refused', LOG.replace('`search`: no proof of this', '`it` was not admitted'))
        self.wrong(LOW, 'low_off is not refused', LOG.replace('it is not proved', 'it is proved'))

    def test_unexplained(self):
        self.wrong(LOW + '\n' + HIGH, 'no impostor changes it', LOG.replace('`closed` was not admitted', '`search`: no proof'))


if __name__ == '__main__':
    unittest.main()
