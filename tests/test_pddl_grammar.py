"""The strict parser of PDDL itself, on texts written by hand: in other layouts than ours, and outside the grammar."""

import unittest

from pddl_grammar import Action, Domain, Outside, Problem, domain, problem

STAGE = """\
(define (domain stage)
  (:requirements :strips)
  (:predicates (laser-on) (row-stored))
  (:action switch-on :parameters () :precondition (and) :effect (and (laser-on)))
  (:action store-row :parameters () :precondition (and (laser-on)) :effect (and (row-stored) (not (laser-on)))))
"""
RUN = "(define (problem run) (:domain stage) (:init (laser-on)) (:goal (and (row-stored) (laser-on))))"

ON = ("laser-on",)
STORED = ("row-stored",)
ACTIONS = [Action("switch-on", [], [], [ON], []), Action("store-row", [], [ON], [STORED], [ON])]

BLOCKS = """; blocks, with arguments and without requirements
(define (domain BLOCKS)
\t(:predicates (on ?x ?y) (Clear ?x)\r
             (hand-empty))      ; a comment (with a parenthesis
  (:ACTION pick_up
   :parameters (?x ?y)
   :precondition (and (hand-empty) (and (clear ?X) (and)) () (on ?x ?y))
   :effect (not (HAND-EMPTY)))
  (:action look :parameters ()
   :precondition ()
   :effect ())
  (:action wait :parameters (?for))
  (:action drop :parameters () :effect (hand-empty))
);"""
PICK_UP = Action(
    "pick_up", ["?x", "?y"], [("hand-empty",), ("clear", "?x"), ("on", "?x", "?y")], [], [("hand-empty",)]
)  # fmt: skip

NO_DOMAIN = {  # what is wrong: what of the stage is replaced by what
    "nothing": (STAGE, ""),
    "a comment alone": (STAGE, "; nothing\n"),
    "not closed": (")))\n", "))\n"),
    "closed twice": (")))\n", "))))\n"),
    "two of them": (STAGE, STAGE + STAGE),
    "a word after it": (")))\n", "))) end\n"),
    "a word alone": (STAGE, "define"),
    "no name": ("(domain stage)", "(domain)"),
    "two names": ("(domain stage)", "(domain stage other)"),
    "a name that is none": ("(domain stage)", "(domain ?stage)"),
    "a list for a name": ("(domain stage)", "(domain (stage))"),
    "a problem": ("(domain stage)", "(problem stage)"),
    "no define": ("(define (domain", "((domain"),
    "a name with a digit first": ("laser-on", "0laser"),
    "a name with another letter": ("laser-on", "läser-on"),
    "a name with a letter that is small only as a k": ("laser-on", "las\u212aer"),
    "a token with a dot": ("laser-on", "laser.on"),
    "a keyword without a name": (":strips", ":"),
    "a string": ("(laser-on)", '"laser-on"'),
    "two words that touch": ("(define", "(define:x"),
    "another requirement": (":strips", ":adl"),
    "one more requirement": (":strips", ":strips :typing"),
    "no requirement": (":strips", ""),
    "requirements after the predicates": (
        "(:requirements :strips)\n  (:predicates (laser-on) (row-stored))",
        "(:predicates (laser-on) (row-stored)) (:requirements :strips)",
    ),
    "requirements twice": ("(:requirements :strips)", "(:requirements :strips) (:requirements :strips)"),
    "predicates without a list": ("(:predicates (laser-on) (row-stored))", ":predicates (laser-on) (row-stored)"),
    "no predicate in the list": ("(:predicates (laser-on) (row-stored))", "(:predicates )"),
    "a predicate without a name": ("(:predicates (laser-on)", "(:predicates () (laser-on)"),
    "a predicate without parentheses": ("(:predicates (laser-on)", "(:predicates laser-on"),
    "a predicate declared twice": ("(row-stored))\n", "(row-stored) (Laser-On))\n"),
    "a predicate of names": ("(row-stored))\n", "(row-stored x))\n"),
    "a typed predicate": ("(row-stored))\n", "(row-stored ?x - row))\n"),
    "a predicate with a variable twice": ("(row-stored))\n", "(row-stored) (on ?x ?x))\n"),
    "a predicate called and": ("(row-stored))\n", "(row-stored) (and))\n"),
    "types": ("(:predicates", "(:types row) (:predicates"),
    "constants": ("(:predicates", "(:constants row) (:predicates"),
    "functions": ("(:action switch-on", "(:functions (cost)) (:action switch-on"),
    "an action declared twice": ("(:action store-row", "(:action SWITCH-ON"),
    "an action without a name": ("(:action switch-on", "(:action"),
    "a durative action": ("(:action switch-on", "(:durative-action switch-on"),
    "no parameters": (":parameters () :precondition (and)", ":precondition (and)"),
    "parameters without parentheses": (":parameters ()", ":parameters"),
    "a parameter that is a name": (":parameters ()", ":parameters (x)"),
    "a typed parameter": (":parameters ()", ":parameters (?x - row)"),
    "a parameter twice": (":parameters ()", ":parameters (?x ?X)"),
    "parameters after the precondition": (":parameters () :precondition (and)", ":precondition (and) :parameters ()"),
    "the effect before the precondition": (
        ":precondition (and) :effect (and (laser-on))",
        ":effect (and (laser-on)) :precondition (and)",
    ),
    "two preconditions": (":precondition (and)", ":precondition (and) :precondition (and)"),
    "a precondition that is a word": (":precondition (and)", ":precondition laser-on"),
    "a precondition without a value": (":precondition (and) :effect (and (laser-on))", ":precondition"),
    "a negative precondition": (":precondition (and)", ":precondition (not (laser-on))"),
    "a negative precondition in a conjunction": ("(and (laser-on)) :effect", "(and (not (laser-on))) :effect"),
    "a disjunction": ("(and (laser-on)) :effect", "(or (laser-on)) :effect"),
    "a quantifier": (":precondition (and)", ":precondition (forall (?x) (laser-on))"),
    "an undeclared predicate that is needed": ("(and (laser-on)) :effect", "(and (laser-off)) :effect"),
    "an undeclared predicate that is added": ("(and (row-stored) (not", "(and (row-kept) (not"),
    "an undeclared predicate that is deleted": ("(not (laser-on))", "(not (laser-off))"),
    "an argument too many": ("(and (laser-on)) :effect", "(and (laser-on ?x)) :effect"),
    "an argument too few": ("(row-stored))\n", "(row-stored ?x))\n"),
    "a list in an atom": ("(and (laser-on)) :effect", "(and ((laser-on))) :effect"),
    "a conjunction in an effect's": ("(and (row-stored) (not", "(and (and (row-stored)) (not"),
    "an empty effect in an effect's": ("(and (row-stored) (not", "(and () (not"),
    "a conditional effect": ("(and (row-stored) (not", "(and (when (laser-on) (row-stored)) (not"),
    "not of two": ("(not (laser-on))", "(not (laser-on) (row-stored))"),
    "not of nothing": ("(not (laser-on))", "(not)"),
    "not of not": ("(not (laser-on))", "(not (not (laser-on)))"),
    "a numeric effect": ("(and (row-stored) (not", "(and (increase (cost) 1) (not"),
    "more in an action": ("(not (laser-on)))))", "(not (laser-on))) :cost)))"),
}
NO_PROBLEM = {
    "another domain": ("(:domain stage)", "(:domain table)"),
    "no domain": ("(:domain stage)", ""),
    "two domains": ("(:domain stage)", "(:domain stage stage)"),
    "a domain": ("(problem run)", "(domain run)"),
    "objects": ("(:init", "(:objects a) (:init"),
    "no init": ("(:init (laser-on))", ""),
    "an undeclared fact": ("(:init (laser-on))", "(:init (laser-off))"),
    "an undeclared goal": ("(and (row-stored)", "(and (row-kept)"),
    "a fact of something": ("(:init (laser-on))", "(:init (laser-on bench))"),
    "a numeric fact": ("(:init (laser-on))", "(:init (= (cost) 0))"),
    "a conjunction in init": ("(:init (laser-on))", "(:init (and (laser-on)))"),
    "a negative goal": ("(and (row-stored)", "(and (not (row-stored))"),
    "no goal": (" (:goal (and (row-stored) (laser-on)))", ""),
    "a goal of nothing at all": ("(:goal (and (row-stored) (laser-on)))", "(:goal)"),
    "two goals": ("(:goal (and (row-stored) (laser-on)))", "(:goal (row-stored) (laser-on))"),
    "the goal before the start": ("(:init (laser-on)) (:goal (and", "(:goal (laser-on)) (:init (and"),
    "a metric": ("(laser-on))))", "(laser-on))) (:metric minimize (cost)))"),
    "another requirement": ("(:init", "(:requirements :typing) (:init"),
    "not closed": ("(laser-on))))", "(laser-on)))"),
}


class Domains(unittest.TestCase):
    def test_good(self):
        self.assertEqual(domain(STAGE), Domain("stage", [":strips"], {"laser-on": 0, "row-stored": 0}, ACTIONS))

    def test_any_white_space(self):
        tight = " ".join(STAGE.split()).replace("( ", "(").replace(" )", ")")
        for between in (" ", "\n", "\t", "\r\n", "\f ", " ; a comment\n", ";\n;(((\n"):
            spaced = STAGE.replace("(", f"{between}({between}").replace(")", f"{between}){between}")
            for text in (tight, tight.replace(" (", "("), spaced, STAGE.replace(" ", between)):
                self.assertEqual(domain(text), domain(STAGE), repr(between))

    def test_any_case(self):
        self.assertEqual(domain(STAGE.upper()), domain(STAGE))
        self.assertEqual(domain(STAGE.title()), domain(STAGE))

    def test_arguments_conjunctions_and_what_may_be_left_out(self):
        found = domain(BLOCKS)
        self.assertEqual((found.name, found.requirements), ("blocks", []))
        self.assertEqual(found.predicates, {"on": 2, "clear": 1, "hand-empty": 0})
        self.assertEqual(found.actions[0], PICK_UP)
        self.assertEqual(found.actions[1:3], [Action("look", [], [], [], []), Action("wait", ["?for"], [], [], [])])
        self.assertEqual(found.actions[3].adds, [("hand-empty",)])

    def test_the_least(self):
        self.assertEqual(domain("(define(domain x))"), Domain("x", [], {}, []))
        self.assertEqual(domain("(define(domain x)(:requirements :strips :STRIPS))").requirements, [":strips", ":strips"])

    def test_a_delete_that_is_also_an_add(self):
        found = domain(STAGE.replace("(not (laser-on))", "(not (laser-on)) (laser-on) (not (row-stored))")).actions[1]
        self.assertEqual((found.adds, found.deletes), ([STORED, ON], [ON, STORED]))

    def test_a_variable_that_is_no_parameter(self):
        for other in ("?z", "y", "(?y)", ":y"):
            with self.assertRaises(Outside):
                domain(BLOCKS.replace("(on ?x ?y))\n", f"(on ?x {other}))\n"))

    def test_outside(self):
        for what, (old, new) in NO_DOMAIN.items():
            with self.subTest(what=what):
                self.assertIn(old, STAGE)
                with self.assertRaises(Outside):
                    domain(STAGE.replace(old, new))

    def test_every_cut_is_outside(self):
        whole = STAGE.rstrip()
        for length in range(len(whole)):
            with self.assertRaises(Outside):
                domain(whole[:length])


class Problems(unittest.TestCase):
    def test_good(self):
        expected = Problem("run", "stage", [], [ON], [STORED, ON])
        for text in (RUN, RUN.upper(), RUN.replace(" ", "\n\t; the run\n"), f";\n{RUN}\n\n"):
            self.assertEqual(problem(text, domain(STAGE)), expected)

    def test_what_may_be_empty_or_left_out(self):
        of = domain(STAGE)
        self.assertEqual(problem(RUN.replace("(:init (laser-on))", "(:init)"), of).init, [])
        for goal in ("(and)", "()", "(and (and) ())"):
            self.assertEqual(problem(RUN.replace("(and (row-stored) (laser-on))", goal), of).goal, [])
        self.assertEqual(problem(RUN.replace("(and (row-stored) (laser-on))", "(row-stored)"), of).goal, [STORED])
        self.assertEqual(problem(RUN.replace("(:init", "(:requirements :strips) (:init"), of).requirements, [":strips"])

    def test_what_does_not_hold_may_be_said(self):
        self.assertEqual(problem(RUN.replace("(:init", "(:init (not (row-stored))"), domain(STAGE)).init, [ON])

    def test_outside(self):
        for what, (old, new) in NO_PROBLEM.items():
            with self.subTest(what=what):
                self.assertIn(old, RUN)
                with self.assertRaises(Outside):
                    problem(RUN.replace(old, new), domain(STAGE))
