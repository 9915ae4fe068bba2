//! Equations between what the definitions give and lists of numbers, as text for the checker.

use std::fmt::Display;

/// What stands before the equations: the calls' outcomes as lists of numbers.
const HEAD: &str = "\
-- What the definitions give for small tables, beside what the second engine gives.
use Rattle.std.specs.Prelude.{◌≡◌, refl, List, [], ◌∷◌, map, take, ℕ, suc, ◌+◌, ℤ, pos, negsuc}
use Rattle.plan_model.specs.declared.Window.{Window}
use Rattle.model.specs.Groups.{greatest, same_group, process_bits, restrict, merge}
use Rattle.model.specs.Words.{tops}
use Rattle.model.specs.Systems.{enabled, fire}
use Rattle.model.specs.Copies.{leaves_control, reenters, copies, subsets, mixed, mixtures, copied}
use Rattle.model.specs.Tables.{is_out_of_turn, group_fits, transition_fits, written_fit, value_fits, cooperates, is_narrow, is_reentry, is_twin, refusal, read_from, read, system_of}
use Rattle.model.specs.Log.{reads_at, key_less, same_key, additions, log_at, first_saturated, saturated_at}
use Rattle.model.specs.Unfolding.{accepting_path, emitted_by}
use Rattle.model.specs.Records.{record_bytes}
use Rattle.model.specs.Participation.{with_step}
use Rattle.model.specs.Calls.{records_of, run_of, scratch_after, log_after, page_after, answer_given, answer_call, run_call, walk_call, answer_figures, refused_at, refused_by, run_given, run_figures, walk_counts, walk_given, walk_figures}
use Rattle.desk_model.specs.Desks.{fires, saves, returns, forgets, findings, desk_call}
use Rattle.plan_model.specs.Hours.{begin_of, begins_from, bound_of, delay, ended_at, first_among, first_never, fits, hours_fit, lengths_fit, never_fits, plan_begins, plan_call, plan_fits, plan_given, run_fits, start_fits}
use Rattle.model.specs.SmallTables.{used}
use Rattle.desk_model.specs.SmallDesks.{trace}
use Rattle.plan_model.specs.SmallPlans.{from_to}

abbrev answered : List ℕ → ℕ → ℕ → List (List ℕ)
answered table log scratch =
    let o = answer_call table (used log) (used scratch) in answer_figures o.answer ∷ o.log ∷ take 3 o.scratch ∷ []

abbrev ran : List ℕ → ℕ → ℕ → ℕ → List (List ℕ)
ran table log scratch page =
    let o = run_call table (used log) (used scratch) (used page) in run_figures o.answer ∷ o.log ∷ take 3 o.scratch ∷ o.page ∷ []

abbrev walked : List ℕ → List ℕ → ℕ → ℕ → List (List ℕ)
walked table list pile scratch =
    let o = walk_call table list (used pile) (used scratch) in walk_figures o.answer ∷ o.counts ∷ o.rest ∷ o.pile ∷ take 3 o.scratch ∷ []

-- a minute as a natural number
abbrev coded : ℤ → ℕ
coded (pos n) = n + n
coded (negsuc n) = suc (n + n)

abbrev planned : List ℕ → List ℕ → List (List Window) → List ℕ → List ℕ → ℤ → ℕ → List (List ℕ)
planned table run hours counts lengths start places =
    let o = plan_call table run hours counts lengths start (map pos (used places)) in
    (refused_by o.answer ∷ refused_at o.answer ∷ []) ∷ map coded o.begins ∷ []
";

/// The definitions that an equation may unfold.
const UNFOLDING: &str = "unfolding greatest same_group process_bits restrict merge tops enabled fire leaves_control reenters copies subsets mixed mixtures copied is_out_of_turn group_fits transition_fits written_fit value_fits cooperates is_narrow is_reentry is_twin refusal read_from read system_of reads_at key_less same_key additions log_at first_saturated saturated_at accepting_path emitted_by record_bytes records_of run_of scratch_after log_after page_after answer_given answer_call run_given run_call walk_counts walk_given with_step walk_call findings desk_call fits first_among delay bound_of ended_at begin_of begins_from never_fits first_never hours_fit lengths_fit start_fits run_fits plan_fits plan_given plan_begins plan_call";

/// A call's outcome by the definitions, and the lists that it shall be.
pub struct Equation {
    left: String,
    right: Vec<Vec<u64>>,
}

impl Equation {
    pub fn new(left: String, right: Vec<Vec<u64>>) -> Self {
        Equation { left, right }
    }

    /// Makes the call's first figure wrong.
    pub fn falsify(&mut self) {
        self.right[0][0] += 1;
    }
}

/// The equations, each with a name of its own.
pub fn module(equations: &[Equation]) -> String {
    let mut text = HEAD.to_string();
    for (number, Equation { left, right }) in equations.iter().enumerate() {
        let lists: Vec<String> = right.iter().map(|numbers| list(numbers)).collect();
        let right = lists.join(" ∷ ");
        text.push_str(&format!(
            "\ncase_{number} : {left} ≡ ({right} ∷ [])\n{UNFOLDING}\ncase_{number} = refl\n"
        ));
    }
    text
}

/// A list of numbers or of other texts, in brackets.
pub fn list<T: Display>(items: &[T]) -> String {
    let items: String = items.iter().map(|item| format!("{item} ∷ ")).collect();
    format!("({items}[])")
}
