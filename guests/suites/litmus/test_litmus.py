"""Tests of the reader and the enumerator: python3 -m unittest discover guests/suites/litmus"""
import unittest

import litmus_test
import outcomes

LOCKS = '''C locks
(* Result: Never *)
{
int x = 1;
p=y;
}

P0(int *x, int **p, spinlock_t *lock) // the writer
{
	spin_lock(lock);
	WRITE_ONCE(*x, 2);
	WRITE_ONCE(*x, 3);
	rcu_assign_pointer(*p, x);
	spin_unlock(lock);
}

P1(int *x, int **p, spinlock_t *lock)
{
	int *r0;
	int r1;

	spin_lock(lock);
	r0 = rcu_dereference(*p);
	r1 = READ_ONCE(*r0);
	spin_unlock(lock);
	if (r1)
		WRITE_ONCE(*x, 4);
}

exists (1:r0=x /\\ 1:r1=2) (* never *)
'''


def shape(line):
    return litmus_test.Test(litmus_test.of_shape(line))


class Enumerator(unittest.TestCase):
    def count(self, line):
        return len(outcomes.outcomes(shape(line)))

    def test_of_all_combinations_one_is_against_every_order(self):
        self.assertEqual(self.count('MP x=1 y=1 | ?y ?x'), 3)
        self.assertEqual(self.count('SB x=1 ?y | y=1 ?x'), 3)
        self.assertEqual(self.count('LB ?x y=1 | ?y x=1'), 3)
        self.assertEqual(self.count('IRIW x=1 | ?x ?y | y=1 | ?y ?x'), 15)
        self.assertEqual(self.count('4.SB x=1 ?y | y=1 ?z | z=1 ?w | w=1 ?x'), 15)

    def test_store_buffering_is_against_every_order(self):
        test = shape('SB x=1 ?y | y=1 ?x')
        names = test.seen()
        self.assertEqual(names, [(0, 'r0'), (1, 'r0'), (None, 'x'), (None, 'y')])
        self.assertEqual(outcomes.outcomes(test), {(0, 1, 1, 1), (1, 0, 1, 1), (1, 1, 1, 1)})

    def test_changes_are_one_event(self):
        test = shape('INC x+ x+ | x+')
        self.assertEqual(outcomes.outcomes(test), {(3,)})
        one = shape('CAS x:0:1 | x:0:2')
        self.assertEqual(outcomes.outcomes(one), {(0, 1, 1), (2, 0, 2)})

    def test_loads_and_stores_are_two(self):
        test = litmus_test.Test('C lost\n{}\nP0(int *x)\n{\n int r0;\n r0 = READ_ONCE(*x);\n if (r0) WRITE_ONCE(*x, 3); '
                                'else WRITE_ONCE(*x, 1);\n}\nP1(int *x)\n{\n WRITE_ONCE(*x, 2);\n}\n')
        self.assertEqual(outcomes.outcomes(test), {(0, 1), (0, 2), (2, 3)})


class Reading(unittest.TestCase):
    def test_locks_pointers_and_choices(self):
        test = litmus_test.Test(LOCKS)
        self.assertEqual(test.result, 'Never')
        self.assertEqual(test.kinds, {'x': 'int', 'p': 'int*', 'lock': 'spinlock_t', 'y': 'int'})
        self.assertEqual(test.begin, {'x': 1, 'p': 'y', 'lock': 0, 'y': 0})
        found = outcomes.outcomes(test)
        self.assertEqual({outcome[:2] for outcome in found}, {('y', 0), ('x', 3)})
        self.assertFalse(any(outcomes.holds(test, outcome) for outcome in found))

    def test_what_isnt_understood_is_said(self):
        text = 'C rcu\n{}\nP0(int *x)\n{\n WRITE_ONCE(*x, 1);\n synchronize_rcu();\n}\n'
        with self.assertRaises(litmus_test.Untranslatable) as raised:
            litmus_test.Test(text)
        self.assertEqual(str(raised.exception), 'synchronize_rcu')

    def test_threads_that_wait_for_one_another_are_refused(self):
        text = 'C stuck\n{}\nP0(spinlock_t *s)\n{\n spin_lock(s);\n spin_lock(s);\n}\n'
        with self.assertRaises(ValueError):
            outcomes.outcomes(litmus_test.Test(text))


if __name__ == '__main__':
    unittest.main()
