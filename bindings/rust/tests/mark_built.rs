//! The mark that names each Tlas's Blases: a Build of the same lists to every answer and every byte that is left, and named as a mark.
use zakvind::*;

const BUILD: u32 = 1;
const MARK_BUILT: u32 = 5;

/// What lasts from one submission to the next: Blases by state and number, two Tlases without number, and the counter.
#[derive(Clone, Debug, PartialEq)]
struct World {
    blases: Vec<u8>,
    tlases: Vec<u8>,
    dependency_counts: Vec<u16>,
    dependencies: Vec<u16>,
    indices: CommandIndices,
}

impl World {
    fn new(counter: u64, blases: &[(BlasCompactState, u64)]) -> Self {
        let blases: Vec<Blas> = blases
            .iter()
            .map(|&(compacted_state, built_index)| Blas { compacted_state, built_index, ..Default::default() })
            .collect();
        World {
            blases: table(&blases).unwrap(),
            tlases: table(&[Tlas::default(); 2]).unwrap(),
            dependency_counts: vec![0; 2],
            dependencies: vec![7; 2 * DEPENDENCY_ROOM],
            indices: CommandIndices { active_submission_index: 3, next_acceleration_structure_build_command_index: counter },
        }
    }

    fn submit(&mut self, actions: &Actions) -> Result<(), SubmitRefused> {
        let lent = Lent {
            blases: &mut self.blases,
            tlases: &mut self.tlases,
            dependency_counts: &mut self.dependency_counts,
            dependencies: &mut self.dependencies,
        };
        validate_acceleration_structure_actions(&mut self.indices, lent, actions)
    }
}

fn idle(numbers: &[u64]) -> Vec<(BlasCompactState, u64)> {
    numbers.iter().map(|&n| (BlasCompactState::Idle, n)).collect()
}

fn as_builds(actions: &Actions) -> Actions {
    let kinds = actions.actions.iter().enumerate();
    let cells = kinds.map(|(i, &c)| if i % 4 == 0 && c == MARK_BUILT { BUILD } else { c }).collect();
    Actions { actions: cells, lists: actions.lists.clone() }
}

/// Of the mark and of the Build the same refusal but for the kind, and the same is left; the mark's words.
fn refused(world: &World, make: &dyn Fn(&mut Actions)) -> String {
    let mut actions = Actions::default();
    make(&mut actions);
    let (mut marked, mut built) = (world.clone(), world.clone());
    let mut of_mark = marked.submit(&actions).unwrap_err();
    let of_build = built.submit(&as_builds(&actions)).unwrap_err();
    let words = of_mark.to_string();
    assert_eq!(marked, built);
    assert_eq!((of_mark.kind, of_build.kind), (MARK_BUILT, BUILD));
    of_mark.kind = BUILD;
    assert_eq!(of_mark, of_build);
    words
}

#[test]
fn a_marked_tlas_goes_stale() {
    let mut world = World::new(5, &idle(&[0, 0]));
    let mut actions = Actions::default();
    actions.mark_built(&[BlasId(0)], &[(TlasId(0), &[BlasId(0)])]).unwrap();
    actions.use_tlas(TlasId(0));
    world.submit(&actions).unwrap();
    assert_eq!(world.indices.next_acceleration_structure_build_command_index, 6);
    let mut actions = Actions::default();
    actions.mark_blas(BlasId(0));
    actions.use_tlas(TlasId(0));
    let refused = world.submit(&actions).unwrap_err();
    assert_eq!((refused.error, refused.action), (ValidateAsActionsError::BlasNewerThenTlas(BlasId(0), TlasId(0)), 1));
    assert_eq!(world.indices, CommandIndices { active_submission_index: 3, next_acceleration_structure_build_command_index: 7 });
}

#[test]
fn the_old_mark_draws_over_what_is_rebuilt() {
    let mut actions = Actions::default();
    actions.mark_blas(BlasId(0));
    actions.mark_tlas(TlasId(0));
    actions.use_tlas(TlasId(0));
    actions.mark_blas(BlasId(0));
    actions.use_tlas(TlasId(0));
    let mut world = World::new(5, &idle(&[0, 0]));
    world.submit(&actions).unwrap();
    assert_eq!((world.dependency_counts[0], world.indices.next_acceleration_structure_build_command_index), (0, 8));
}

#[test]
fn refusals_are_a_builds() {
    let fresh = World::new(5, &idle(&[0, 0, 3]));
    let one = |counter| World::new(counter, &[(BlasCompactState::Compacted, 4)]);
    let of = |blases: &'static [BlasId], tlases: &'static [(TlasId, &'static [BlasId])]| {
        move |a: &mut Actions| a.mark_built(blases, tlases).unwrap()
    };
    assert_eq!(
        refused(&fresh, &|a| a.actions.extend([MARK_BUILT, 0, 1, 0])),
        "refused 5: value outside its field, mark as built at action 0; action 0: its lists end before cell 1, 0 cells are lent"
    );
    assert_eq!(
        refused(&fresh, &of(&[BlasId(0); 65], &[])),
        "refused 4: count above its limit, mark as built at action 0; action 0: count of blases is 65, may be 0 to 64"
    );
    assert_eq!(
        refused(&fresh, &of(&[], &[(TlasId(0), &[]), (TlasId(1), &[BlasId(2), BlasId(3)])])),
        "refused 6: id outside its table, mark as built at action 0; action 0, list of its tlas 1: blas is 3, there are 3 blases"
    );
    assert_eq!(refused(&one(0), &of(&[BlasId(0)], &[])), "refused 40: counter 0, mark as built at action 0");
    assert_eq!(
        refused(&one(9), &of(&[BlasId(0)], &[])),
        "refused 41: Blas to build is compacted, mark as built at action 0, Blas 0"
    );
    // its step, its Blases and its earlier Tlases stand, as the comparison with the Build says
    assert_eq!(
        refused(&fresh, &of(&[BlasId(0)], &[(TlasId(1), &[BlasId(0), BlasId(2)]), (TlasId(0), &[BlasId(0), BlasId(1)])])),
        "refused 42: Blas without number, mark as built at action 0, Blas 1, Tlas 0"
    );
}

#[test]
fn what_is_left_is_a_builds() {
    let mut actions = Actions::default();
    actions.mark_built(&[BlasId(0), BlasId(1)], &[(TlasId(1), &[BlasId(0), BlasId(2)]), (TlasId(0), &[])]).unwrap();
    actions.mark_built(&[], &[(TlasId(0), &[BlasId(1), BlasId(1)])]).unwrap();
    actions.mark_built(&[], &[]).unwrap();
    actions.use_tlas(TlasId(0));
    actions.use_tlas(TlasId(1));
    let mut marked =
        World::new(u64::MAX - 3, &[(BlasCompactState::Ready, 0), (BlasCompactState::Waiting, 1), (BlasCompactState::Idle, 2)]);
    let mut built = marked.clone();
    marked.submit(&actions).unwrap();
    built.submit(&as_builds(&actions)).unwrap();
    assert_eq!(marked, built);
    assert_eq!(marked.dependency_counts, [2, 2]);
    assert_eq!(marked.dependencies[..3], [1, 1, 7]);
}

#[test]
fn there_is_no_kind_above() {
    for kind in [6, 255, 261, 65_541, u32::MAX] {
        let mut world = World::new(5, &idle(&[0]));
        let before = world.clone();
        let refused = world.submit(&Actions { actions: vec![kind, 0, 1, 0], lists: vec![0] }).unwrap_err();
        assert_eq!((refused.error, refused.action), (ValidateAsActionsError::InvalidValue, 0));
        let said = format!("refused 5: value outside its field, action 0; action 0: kind is {kind}, may be 1 to 5");
        assert_eq!(refused.to_string(), said);
        assert_eq!(world, before);
    }
}

#[test]
fn a_sheet_has_no_such_mark() {
    // version and alignment 1, no records but two actions: a use of Tlas 0, and one of kind 5
    let mut sheet = vec![0; 37];
    (sheet[0], sheet[1], sheet[29], sheet[31], sheet[34]) = (1, 1, 2, 2, 5);
    let refused = read_sheet(&sheet).unwrap_err();
    assert_eq!((refused.error.number(), refused.place), (5, 34));
    assert_eq!(refused.misfit.unwrap().to_string(), "byte 34: action 1, kind is 5, may be 1 to 4");
    sheet[34] = 4;
    assert!(read_sheet(&sheet).is_ok());
}

#[test]
fn what_has_no_room_is_named_and_not_added() {
    let mut actions = Actions::default();
    let many = vec![BlasId(0); 65_536];
    let misfit = actions.mark_built(&[BlasId(0)], &[(TlasId(0), &many)]).unwrap_err();
    assert_eq!(misfit.to_string(), "action 0, list of its tlas 0: count of blases is 65536, may be 0 to 65535");
    assert_eq!(actions, Actions::default());
}

/// A number of Marsaglia's xorshift, below n.
fn below(state: &mut u64, n: u64) -> u64 {
    *state ^= *state << 13;
    *state ^= *state >> 7;
    *state ^= *state << 17;
    *state % n
}

/// An action of any of the five kinds, over three Blases and two Tlases.
fn draw(actions: &mut Actions, state: &mut u64) {
    let mut id = || u16::try_from(below(state, 6)).unwrap();
    let (kind, b, t) = (id(), BlasId(id() % 3), TlasId(id() % 2));
    let [first, second] = [0; 2].map(|_| [0; 2].map(|_| BlasId(id() % 3)));
    let lists: [(TlasId, &[BlasId]); 2] = [(t, &first), (TlasId(1 - t.0), &second[..usize::from(id() % 3)])];
    let lists = &lists[..usize::from(id() % 3)];
    match kind {
        0 => actions.build(&[b], lists).unwrap(),
        1 => actions.mark_blas(b),
        2 => actions.mark_tlas(t),
        3 => actions.mark_built(&[b], lists).unwrap(),
        _ => actions.use_tlas(t),
    }
}

/// A list of 60 actions that is accepted, but for one that is now and then refused midway.
fn long_list(start: &World, state: &mut u64) -> Actions {
    let (mut actions, mut world) = (Actions::default(), start.clone());
    while actions.count() < 60 {
        let (before, mut one, mut tried) = (*state, Actions::default(), world.clone());
        draw(&mut one, state);
        let passes = tried.submit(&one).is_ok();
        if passes || below(state, 40) == 0 {
            draw(&mut actions, &mut before.clone());
            world = tried;
        }
    }
    actions
}

/// What is answered, the action counted through.
fn answered(answer: Result<(), SubmitRefused>, before: usize) -> Option<(u64, u64, [u64; 2])> {
    answer.err().map(|r| (r.number, r.action + u64::try_from(before).unwrap(), r.figures))
}

#[test]
fn long_lists_of_all_kinds_are_the_same_however_cut() {
    let start = World::new(5, &idle(&[0, 0, 3]));
    let (mut state, mut accepted, mut refused) = (0x5eed, 0, 0);
    for _ in 0..200 {
        let list = long_list(&start, &mut state);
        assert!((1..=5).all(|kind| list.actions.iter().step_by(4).any(|k| *k == kind)));
        let mut whole = start.clone();
        let uncut = answered(whole.submit(&list), 0);
        (accepted, refused) = if uncut.is_none() { (accepted + 1, refused) } else { (accepted, refused + 1) };
        for _ in 0..20 {
            let (mut world, mut sent, mut answer) = (start.clone(), 0, None);
            while sent < list.count() && answer.is_none() {
                let most = u64::try_from(list.count() - sent).unwrap();
                let n = 1 + usize::try_from(below(&mut state, most)).unwrap();
                let piece = Actions { actions: list.actions[4 * sent..4 * (sent + n)].to_vec(), lists: list.lists.clone() };
                answer = answered(world.submit(&piece), sent);
                sent += n;
            }
            assert_eq!((answer, &world), (uncut, &whole));
        }
    }
    assert!(accepted > 20 && refused > 20, "{accepted} accepted, {refused} refused");
}
