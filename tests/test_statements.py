"""A statement has one home: no lemma of the crates says what another one says."""
from helpers.cases import same
from helpers.statements import copies, form, heads, is_closed, is_lemma, own, predicates

FILE = """-- A comment.
use Rattle.std.proofs.Common.{refl}

pub not_true : (b : Bool) → not b ≡ true → b ≡ false
not_true true h = cc
not_true false h = refl

long : (xs : List ℕ) →
    length xs ≤ 3
abbrev Test : Type 0

record Fits (n : ℕ) : Type 0 where
  pub low : 1 ≤ n

module _ (n : ℕ) (low : 1 ≤ n) where
  above : (k : ℕ) → n ≤ k →
      1 ≤ k
  above k le = omega (arith, le, low)

  fits : Fits n
  unfolding above
  fits = record { low = low }
"""


def words(statement, **meant):
    return form(statement, meant)


def test_no_statement_twice():
    again = [(place.file, place.line, place.name, place.statement) for where in copies().values() for place in where]
    same(again, [])


def test_heads_of_a_file():
    outside = [(4, "not_true", "(b : Bool) → not b ≡ true → b ≡ false", False), (8, "long", "(xs : List ℕ) → length xs ≤ 3", False)]
    inside = [(16, "above", "(k : ℕ) → n ≤ k → 1 ≤ k", True), (20, "fits", "Fits n", True)]
    same(list(heads(FILE)), outside + inside)


def test_what_a_file_defines():
    same(own("crates/nets/proofs/A/B.antt", FILE), {name: f"nets.proofs.A.B.{name}" for name in ("not_true", "long", "Test", "Fits")})
    same(predicates("crates/nets/proofs/B.antt", FILE), {"nets.proofs.B.Fits"})


def test_names_of_what_is_around():
    assert is_closed("(b : Bool) → not b ≡ true → b ≡ false", {"Bool": "", "not": "", "true": "", "false": ""})
    assert not is_closed("(k : ℕ) → n ≤ k → 1 ≤ k", {"ℕ": ""})


def test_one_statement_in_other_words():
    first = words("(a b : Bool) → (a && b) ≡ true → a ≡ true")
    same(words("(x : Bool) {y : Bool} → x && y ≡ true → x ≡ true"), first)
    same(words("(a b : Bool) → (h : a && b ≡ true) → a ≡ true"), first)
    same(words("(a : Bool) → (h : a ≡ true) → (b : Bool) → (a || b) ≡ true"), words("(a : Bool) → a ≡ true → (c : Bool) → a || c ≡ true"))
    assert words("(a b : Bool) → (a && b) ≡ true → b ≡ true") != first


def test_names_of_variables_in_functions():
    same(words("(f : A → B) → (λ x. f x) ≡ f"), words("(g : A → B) → (λ y. g y) ≡ g"))


def test_names_that_mean_other_things():
    assert words("(b : Bool) → bit b < 2", bit="here.bit") != words("(b : Bool) → bit b < 2", bit="there.bit")


def test_functions_are_no_lemmas():
    assert is_lemma("(n : ℕ) → n ≤ n")
    assert is_lemma("(n : ℕ) → n < 3 → n ≢ 3")
    assert not is_lemma("ℕ → ℕ → Bool")
    assert is_lemma("(n : ℕ) → Fits n", {"Fits": "here.Fits"}, {"here.Fits"})
    assert not is_lemma("(n : ℕ) → Pair n", {"Pair": "here.Pair"}, {"here.Fits"})
