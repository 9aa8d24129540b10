//! Many instances appended by one call: the bytes of one call after another, or none and the first that is refused, by name.
use zakvind::*;

/// Two Tlases, of which the second returns vertices, over three Blases, of which all but the first do.
struct World {
    tlases: Vec<u8>,
    blases: Vec<u8>,
}

impl World {
    fn new() -> Self {
        let blas = |flags, handle| Blas { flags, handle, ..Default::default() };
        let returns = ALLOW_RAY_HIT_VERTEX_RETURN;
        World {
            tlases: table(&[Tlas::default(), Tlas { flags: returns, ..Default::default() }]).unwrap(),
            blases: table(&[blas(0, 0xb1a5), blas(returns, u64::MAX), blas(returns | ALLOW_COMPACTION, 1 << 63)]).unwrap(),
        }
    }

    fn append(&self, tlas: u16, items: &[TlasInstance], instances: &mut [u8], used: usize) -> Result<usize, AppendManyRefused> {
        append_instances(&self.tlases, &self.blases, TlasId(tlas), items, instances, used)
    }

    /// Refused: nothing is written, and as much is in use as before.
    fn refused(&self, tlas: u16, items: &[TlasInstance], room: usize, used: usize) -> AppendManyRefused {
        let mut instances = vec![7; room];
        let refused = self.append(tlas, items, &mut instances, used).unwrap_err();
        assert_eq!(refused.used, used);
        assert!(instances.iter().all(|byte| *byte == 7), "{refused}");
        refused
    }
}

/// A number of Marsaglia's xorshift.
fn next(state: &mut u64) -> u64 {
    *state ^= *state << 13;
    *state ^= *state >> 7;
    *state ^= *state << 17;
    *state
}

/// Instances that every Tlas takes, their numbers of any bits.
fn some(n: usize) -> Vec<TlasInstance> {
    let mut state = 0x5eed;
    let mut bits = || u32::try_from(next(&mut state) >> 32).unwrap();
    let one = |_| TlasInstance {
        blas: BlasId([1, 2][usize::from(bits() & 1 == 0)]),
        custom_data: bits() >> 8,
        mask: bits().to_le_bytes()[0],
        transform: std::array::from_fn(|_| f32::from_bits(bits())),
    };
    (0..n).map(one).collect()
}

#[test]
fn the_bytes_are_those_of_one_call_after_another() {
    let world = World::new();
    for n in [0, 1, 2, 40, 512, 1000] {
        let items = some(n);
        for (tlas, before, more) in [(0, 0, 0), (1, 64, 0), (0, 3, 5)] {
            let room = before + 64 * n + more;
            let (mut many, mut singly) = (vec![7; room], vec![7; room]);
            let one = |used, item| append_instance(&world.tlases, &world.blases, TlasId(tlas), item, &mut singly, used).unwrap();
            let used = items.iter().fold(before, one);
            assert_eq!(world.append(tlas, &items, &mut many, before), Ok(used));
            assert_eq!((used, &many), (before + 64 * n, &singly));
            // and from bytes
            let bytes: Vec<u8> = items.iter().flat_map(TlasInstance::to_bytes).collect();
            let mut from_bytes = vec![7; room];
            let a = raw::append_instances(&world.tlases, &world.blases, tlas, &bytes, &mut from_bytes, before.try_into().unwrap());
            assert_eq!((a.number, a.e, a.figures, a.used), (0, [0; 2], [0; 3], used.try_into().unwrap()));
            assert_eq!(from_bytes, singly);
        }
    }
}

#[test]
fn the_first_that_is_refused_is_said() {
    let world = World::new();
    let fine = some(40);
    for k in [0, 1, 17, 39] {
        let with = |change: &dyn Fn(&mut TlasInstance)| {
            let mut items = fine.clone();
            change(&mut items[k]);
            items
        };
        let outside = with(&|i| (i.blas, i.custom_data) = (BlasId(3), 1 << 24));
        let data = with(&|i| (i.blas, i.custom_data) = (BlasId(0), 1 << 24));
        let vertices = with(&|i| i.blas = BlasId(0));
        // an instance comes before the room, of one the id first, then its custom data
        for (items, number, error) in [
            (&outside, 6, BuildAccelerationStructureError::InvalidResource),
            (&data, 34, BuildAccelerationStructureError::TlasInvalidCustomIndex),
            (&vertices, 35, BuildAccelerationStructureError::TlasDependentMissingVertexReturn),
        ] {
            for (room, used) in [(64 * 40, 0), (64 * 40 + 1, 1), (63, 0), (0, 1), (0, usize::MAX)] {
                let refused = world.refused(1, items, room, used);
                assert_eq!((refused.number, refused.error, refused.position), (number, error, Some(k)));
                assert_eq!((refused.figures, refused.misfit.is_some()), ([0; 3], number == 6));
            }
            // the ones before it are fine
            assert_eq!(world.append(1, &items[..k], &mut [0; 64 * 40], 0), Ok(64 * k));
        }
        assert_eq!(world.append(0, &vertices, &mut [0; 64 * 40], 0), Ok(64 * 40));
        // a later one is not looked at
        let mut two = vertices;
        two.push(TlasInstance { blas: BlasId(9), ..Default::default() });
        assert_eq!(world.refused(1, &two, 64 * 41, 0).position, Some(k));
        assert_eq!(world.refused(0, &two, 64 * 41, 0).position, Some(40));
    }
}

#[test]
fn ids_are_named() {
    let world = World::new();
    let at = |blas| TlasInstance { blas: BlasId(blas), ..Default::default() };
    let said = |tlas, items: &[TlasInstance]| {
        let refused = world.refused(tlas, items, 256, 0);
        (refused.position, refused.misfit.as_ref().unwrap().to_string(), refused.to_string())
    };
    let misfit = "instance 2: blas is 9, there are 3 blases";
    let words = format!("refused 6: id outside its table, instance 2; {misfit}");
    assert_eq!(said(0, &[at(0), at(1), at(9), at(8)]), (Some(2), misfit.into(), words));
    // at 0 the words leave open which, the name does not
    let misfit = "instance 0: blas is 65535, there are 3 blases";
    let words = format!("refused 6: id outside its table, Tlas or instance 0; {misfit}");
    assert_eq!(said(1, &[at(65535), at(3)]), (Some(0), misfit.into(), words));
    let misfit = "tlas is 2, there are 2 tlases";
    let words = format!("refused 6: id outside its table, Tlas or instance 0; {misfit}");
    for items in [&[at(65535), at(3)][..], &[at(0), at(0)], &[]] {
        assert_eq!(said(2, items), (None, misfit.into(), words.clone()));
    }
}

#[test]
fn refusals_speak_the_librarys_words() {
    fn is_error<E: std::error::Error + Send + Sync + 'static>(_: &E) {}
    let world = World::new();
    let fine = TlasInstance { blas: BlasId(1), ..Default::default() };
    let said = |items: &[TlasInstance], room| {
        let refused = world.refused(1, items, room, 0);
        is_error(&refused);
        refused.to_string()
    };
    let data = TlasInstance { custom_data: 1 << 24, ..fine };
    assert_eq!(said(&[data], 64), "refused 34: custom data from 2^24 on, instance 0");
    let vertices = TlasInstance { blas: BlasId(0), ..fine };
    assert_eq!(said(&[fine, vertices], 128), "refused 35: Tlas returns vertices, Blas does not, instance 1");
    assert_eq!(said(&[fine, fine], 127), "refused 39: lent output too short");
}

#[test]
fn there_is_room_to_the_byte() {
    let world = World::new();
    let items = some(40);
    let too_short = |items: &[TlasInstance], room, used| {
        let refused = world.refused(0, items, room, used);
        assert_eq!((refused.number, refused.error), (39, BuildAccelerationStructureError::OutputTooShort));
        assert_eq!((refused.position, refused.misfit), (None, None));
    };
    assert_eq!(world.append(0, &items, &mut [0; 64 * 40], 0), Ok(64 * 40));
    too_short(&items, 64 * 40 - 1, 0);
    too_short(&items, 64 * 40, 1);
    too_short(&items, 64 * 40, 64 * 40 + 1);
    // sums that are 2^64 and more
    for used in [usize::MAX - 64 * 40, usize::MAX - 64 * 40 + 1, usize::MAX - 64 * 40 + 2, usize::MAX - 63, usize::MAX] {
        too_short(&items, 64 * 41, used);
    }
    // without instances too
    assert_eq!(world.append(0, &[], &mut [], 0), Ok(0));
    let mut all_in_use = [7; 64];
    assert_eq!(world.append(1, &[], &mut all_in_use, 64), Ok(64));
    assert_eq!(all_in_use, [7; 64]);
    too_short(&[], 64, 65);
    too_short(&[], 0, usize::MAX);
}

#[test]
fn a_part_of_an_item_is_refused() {
    let world = World::new();
    let bytes: Vec<u8> = some(3).iter().flat_map(TlasInstance::to_bytes).collect();
    let mut from_2_24 = bytes.clone();
    from_2_24[5] = 1; // the first one's custom data
    for n in 0..bytes.len() {
        let (whole, part) = (n / 55, n % 55);
        for (room, used) in [(64 * 3, 0), (0, 0), (0, u64::MAX)] {
            let mut out = vec![7; room];
            let a = raw::append_instances(&world.tlases, &world.blases, 0, &bytes[..n], &mut out, used);
            let fits = used == 0 && 64 * whole <= room;
            let (number, e1) = match part {
                0 if fits => (0, 0),
                0 => (39, 0),
                _ => (5, whole),
            };
            assert_eq!((a.number, a.e, a.figures), (number, [0, e1.try_into().unwrap()], [0; 3]));
            let written = if number == 0 { 64 * whole } else { 0 };
            assert_eq!(a.used, used + u64::try_from(written).unwrap());
            assert!(out[written..].iter().all(|byte| *byte == 7));
        }
        // the Tlas and each whole one come before it
        let a = raw::append_instances(&world.tlases, &world.blases, 2, &bytes[..n], &mut [], 1);
        assert_eq!((a.number, a.e, a.used), (6, [0, 0], 1));
        let a = raw::append_instances(&world.tlases, &world.blases, 1, &from_2_24[..n], &mut [0], 1);
        let number = match (whole, part) {
            (0, 0) => 0,
            (0, _) => 5,
            _ => 34,
        };
        assert_eq!((a.number, a.e, a.used), (number, [0, 0], 1));
    }
}
