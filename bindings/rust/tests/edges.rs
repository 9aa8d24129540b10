//! What lies between a caller and the library: nothing is cut to fit, nothing panics, and what is refused is named.
use std::fs;
use std::path::Path;
use zakvind::*;

/// The tables of a build that is accepted: a triangle Blas with indices and a transform, a box Blas, a Tlas over both.
struct World {
    version: Version,
    tables: [Vec<u8>; 8],
}

impl World {
    fn new() -> Self {
        let buffer = Buffer { size: 1000, blas_input: true, destroyed: false };
        let geometry = BlasGeometry {
            count: 3,
            stride: 12,
            index_format: IndexFormat::Uint16,
            index_buffer: Some(BufferId(1)),
            index_count: Some(3),
            first_index: Some(0),
            transform_buffer: Some(BufferId(2)),
            transform_buffer_offset: Some(0),
            ..Default::default()
        };
        let boxes = BlasGeometry { count: 2, stride: 24, buffer: BufferId(3), ..Default::default() };
        let declared =
            BlasGeometrySizeDescriptor { count: 3, index_format: IndexFormat::Uint16, index_count: Some(3), ..Default::default() };
        let instance = TlasInstance { mask: 255, transform: IDENTITY, ..Default::default() };
        World {
            version: Version::Two,
            tables: [
                table(&[buffer; 4]).unwrap(),
                table(&[
                    Blas { flags: USE_TRANSFORM | ALLOW_COMPACTION, build_scratch_size: 300, ..Default::default() },
                    Blas { kind: Kind::Boxes, build_scratch_size: 20, ..Default::default() },
                ])
                .unwrap(),
                table(&[declared, BlasGeometrySizeDescriptor { blas: BlasId(1), count: 2, ..Default::default() }]).unwrap(),
                table(&[Tlas { build_scratch_size: 100, max_instance_count: 2, ..Default::default() }]).unwrap(),
                table(&[
                    BlasBuildEntry { geometry_count: 1, ..Default::default() },
                    BlasBuildEntry { blas: BlasId(1), kind: Kind::Boxes, geometry_count: 1 },
                ])
                .unwrap(),
                table(&[geometry, boxes]).unwrap(),
                table(&[TlasPackage { tlas: TlasId(0), slot_count: 3 }]).unwrap(),
                table(&[Some(instance), None, Some(TlasInstance { blas: BlasId(1), ..instance })]).unwrap(),
            ],
        }
    }

    /// The same in version 1: of each geometry's `first`, eight bytes from the sixth on, the lower four.
    fn narrow() -> Self {
        let mut world = World { version: Version::One, ..World::new() };
        world.tables[5] = world.tables[5].chunks(48).flat_map(|g| [&g[..9], &g[13..]].concat()).collect();
        world
    }

    fn tables(&self) -> Tables<'_> {
        let [buffers, blases, declared, tlases, entries, geometries, packages, slots] = &self.tables;
        Tables { version: self.version, buffers, blases, declared, tlases, entries, geometries, packages, slots, actions: &[] }
    }

    fn build(&self) -> Result<Built, BuildRefused> {
        let tables = self.tables();
        build_acceleration_structures(256, &tables, Outputs::for_tables(&tables).lend())
    }

    /// The misfit of the build with a field of a record set, which is the same in both versions.
    fn with(section: usize, record: usize, field: &str, value: u64) -> (u64, String) {
        let [one, two] = [World::narrow(), World::new()].map(|mut world| {
            let s = world.version.section(section).unwrap();
            let f = s.fields.iter().find(|f| f.name == field).unwrap();
            let at = record * s.bytes + f.at;
            world.tables[section - 1][at..at + f.width].copy_from_slice(&value.to_le_bytes()[..f.width]);
            world.build().unwrap_err()
        });
        assert_eq!(one, two);
        (two.number, two.misfit.expect("it is named").to_string())
    }
}

#[test]
fn a_list_that_is_too_long_for_its_count_is_said() {
    let ids: Vec<BlasId> = vec![BlasId(0); 65_537];
    let mut actions = Actions::default();
    actions.use_tlas(TlasId(0));
    let before = actions.clone();
    let misfit = actions.build(&[], &[(TlasId(0), &ids)]).unwrap_err();
    assert_eq!(misfit.to_string(), "action 1, list of its tlas 0: count of blases is 65537, may be 0 to 65535");
    assert_eq!(actions, before);
    // 513 have room in the cells, and are the library's to refuse
    actions.build(&[], &[(TlasId(0), &ids[..513])]).unwrap();
    let (mut blases, mut tlases) = (table(&[Blas::default()]).unwrap(), table(&[Tlas::default()]).unwrap());
    let lent =
        Lent { blases: &mut blases, tlases: &mut tlases, dependency_counts: &mut [0], dependencies: &mut [0; DEPENDENCY_ROOM] };
    let mut only = Actions::default();
    only.build(&[], &[(TlasId(0), &ids[..513])]).unwrap();
    let mut indices = CommandIndices { next_acceleration_structure_build_command_index: 5, ..Default::default() };
    let refused = validate_acceleration_structure_actions(&mut indices, lent, &only).unwrap_err();
    assert_eq!(refused.number, 4);
    assert_eq!(refused.misfit.unwrap().to_string(), "action 0, list of its tlas 0: count of blases is 513, may be 0 to 512");
}

#[test]
fn a_buffer_that_would_mean_none_is_said() {
    let transform = BlasGeometry { transform_buffer: Some(BufferId(65535)), ..Default::default() };
    let index = BlasGeometry { index_buffer: Some(BufferId(65535)), ..Default::default() };
    let misfit = table(&[BlasGeometry::default(), index]).unwrap_err();
    assert_eq!(misfit.to_string(), "section 6, record 1: index buffer is 65535, may be 0 to 65534");
    assert_eq!(table(&[transform]).unwrap_err().to_string(), "section 6, record 0: transform buffer is 65535, may be 0 to 65534");
    let mut before = table(&[BlasGeometry::default()]).unwrap();
    let length = before.len();
    assert!(index.put(&mut before).is_err());
    assert_eq!(before.len(), length);
}

#[test]
fn no_section_number_panics() {
    let sheet = fs::read(shipped("collection.sheet")).unwrap();
    let read = read_sheet(&sheet).unwrap();
    for number in [0, 10, 255, usize::MAX] {
        assert_eq!(read.section(number), None);
    }
    for number in 1..=9 {
        assert_eq!(read.section(number).unwrap().len() % read.version.section(number).unwrap().bytes, 0);
    }
}

#[test]
fn ids_are_named() {
    assert_eq!(World::with(6, 0, "buffer", 77), (6, "entry 0, geometry 0: buffer is 77, there are 4 buffers".into()));
    assert_eq!(World::with(6, 0, "index_buffer", 99), (6, "entry 0, geometry 0: index buffer is 99, there are 4 buffers".into()));
    assert_eq!(
        World::with(6, 0, "transform_buffer", 4),
        (6, "entry 0, geometry 0: transform buffer is 4, there are 4 buffers".into())
    );
    assert_eq!(World::with(6, 1, "buffer", 4), (6, "entry 1, geometry 0: buffer is 4, there are 4 buffers".into()));
    assert_eq!(World::with(5, 1, "blas", 2), (6, "entry 1: blas is 2, there are 2 blases".into()));
    assert_eq!(World::with(8, 0, "blas", 7), (6, "package 0, slot 0: blas is 7, there are 2 blases".into()));
    assert_eq!(World::with(8, 2, "blas", 7), (6, "package 0, slot 2: blas is 7, there are 2 blases".into()));
    assert_eq!(World::with(7, 0, "tlas", 1), (6, "package 0: tlas is 1, there is 1 tlas".into()));
}

#[test]
fn ids_of_an_append_are_named() {
    let world = World::new();
    let t = world.tables();
    let append = |tlas: u16, blas: u16| {
        let instance = TlasInstance { blas: BlasId(blas), ..Default::default() };
        let refused = append_instance(t.tlases, t.blases, TlasId(tlas), &instance, &mut [0; 128], 64).unwrap_err();
        (refused.number, refused.used, refused.misfit.unwrap().to_string())
    };
    assert_eq!(append(3, 0), (6, 64, "tlas is 3, there is 1 tlas".into()));
    assert_eq!(append(0, 9), (6, 64, "blas is 9, there are 2 blases".into()));
}

#[test]
fn fields_are_named() {
    assert_eq!(World::with(1, 0, "marks", 9), (5, "section 1, record 0: marks is 9, may be 0 to 3".into()));
    assert_eq!(World::with(2, 1, "state", 4), (5, "section 2, record 1: state is 4, may be 0 to 3".into()));
    assert_eq!(World::with(3, 0, "blas", 2), (5, "section 3, record 0: blas is 2, may be 0 or 1".into()));
    assert_eq!(
        World::with(3, 0, "stride_alignment", 0),
        (5, "section 3, record 0: stride alignment is 0, may be 1 to 65535".into())
    );
    assert_eq!(World::with(4, 0, "flags", 1), (5, "section 4, record 0: flags is 1, may be 0 or 2".into()));
    assert_eq!(World::with(6, 1, "buffer", 65535), (5, "section 6, record 1: buffer is 65535, may be 0 to 65534".into()));
    assert_eq!(
        World::with(6, 0, "first_index_present", 2),
        (5, "section 6, record 0: first index present is 2, may be 0 or 1".into())
    );
    assert_eq!(World::with(5, 0, "geometry_count", 2), (5, "section 6: count of geometries is 2, the entries draw 3".into()));
    assert_eq!(World::with(7, 0, "slot_count", 65535), (5, "section 8: count of slots is 3, the packages draw 65535".into()));

    let mut world = World::new();
    world.tables[0].extend([0; 5]);
    let refused = world.build().unwrap_err();
    assert_eq!(refused.misfit.unwrap().to_string(), "section 1, record 4: a record has 9 bytes, of which 5 bytes are there");
    let mut world = World::new();
    world.tables[0] = table(&[Buffer::default(); 257]).unwrap();
    let refused = world.build().unwrap_err();
    assert_eq!(
        (refused.number, refused.misfit.unwrap().to_string()),
        (4, "section 1: count of buffers is 257, may be 0 to 256".into())
    );
    let refused = build_acceleration_structures(0, &Tables::default(), LentOutputs::default()).unwrap_err();
    assert_eq!(refused.misfit.unwrap().to_string(), "alignment is 0, may be 1 to 4294967295");
}

#[test]
fn unused_fields_are_not_named() {
    // of boxes nothing after the data buffer is used
    for (mut world, bytes) in [(World::narrow(), 44), (World::new(), 48)] {
        let boxes = 2 * bytes - 24;
        world.tables[5][boxes] = 9;
        world.tables[5][boxes + 8] = 9;
        world.tables[2][18 + 12] = 9;
        assert!(world.build().is_ok());
        let tables = world.tables();
        let boxes = tables.records::<BlasGeometry>().unwrap()[1];
        assert_eq!((boxes.index_format, boxes.index_buffer, boxes.first_index), (IndexFormat::None, None, None));
        assert_eq!(tables.records::<BlasGeometrySizeDescriptor>().unwrap()[1].index_format, IndexFormat::None);
    }
}

#[test]
fn outputs_fit_exactly() {
    let expected = Written {
        blas_offsets: 2,
        tlas_offsets: 1,
        staging_ranges: 2,
        instances: 128,
        init_ranges: 12,
        compactable: 1,
        lists: 2 + 2 + 2,
    };
    // one element less of any is too short
    let shorten: [fn(&mut Outputs); 7] = [
        |o| o.blas_offsets.truncate(o.blas_offsets.len() - 1),
        |o| o.tlas_offsets.truncate(o.tlas_offsets.len() - 1),
        |o| o.staging_ranges.truncate(o.staging_ranges.len() - 1),
        |o| o.instances.truncate(o.instances.len() - 1),
        |o| o.init_ranges.truncate(o.init_ranges.len() - 1),
        |o| o.compactable.truncate(o.compactable.len() - 1),
        |o| o.lists.truncate(o.lists.len() - 1),
    ];
    for world in [World::narrow(), World::new()] {
        let tables = world.tables();
        assert_eq!(Written::for_tables(&tables), expected);
        assert_eq!(world.build().unwrap().recorded().unwrap().written, expected);
        for short in shorten {
            let mut outputs = Outputs::for_tables(&tables);
            short(&mut outputs);
            assert_eq!(build_acceleration_structures(256, &tables, outputs.lend()).unwrap_err().number, 39);
        }
    }
}

fn shipped(name: &str) -> std::path::PathBuf {
    Path::new(env!("CARGO_MANIFEST_DIR")).join("../../sheets").join(name)
}

#[test]
fn outputs_fit_the_shipped_sheets() {
    for name in ["collection.sheet", "usable.sheet", "rebuilt.sheet", "nothing-recorded.sheet"] {
        let sheet = fs::read(shipped(name)).unwrap();
        let read = read_sheet(&sheet).unwrap();
        let tables = read.tables();
        let mut outputs = Outputs::for_tables(&tables);
        match build_acceleration_structures(read.alignment, &tables, outputs.lend()).unwrap() {
            Built::Recorded(recorded) => assert_eq!(recorded.written, Written::for_tables(&tables), "{name}"),
            Built::NothingRecorded { init_ranges } => assert_eq!(init_ranges, outputs.init_ranges.len(), "{name}"),
        }
    }
}

#[test]
fn records_read_back_are_the_same() {
    fn same<R: Record>(tables: &Tables, bytes: &[u8]) {
        assert_eq!(table(&tables.records::<R>().unwrap()).unwrap(), bytes, "section {}", R::SECTION);
    }
    let world = World::new();
    let actions =
        table(&[Action::Build, Action::UseTlas(TlasId(0)), Action::MarkBlas(BlasId(1)), Action::MarkTlas(TlasId(0))]).unwrap();
    let tables = Tables { actions: &actions, ..world.tables() };
    same::<Buffer>(&tables, tables.buffers);
    same::<Blas>(&tables, tables.blases);
    same::<BlasGeometrySizeDescriptor>(&tables, tables.declared);
    same::<Tlas>(&tables, tables.tlases);
    same::<BlasBuildEntry>(&tables, tables.entries);
    same::<BlasGeometry>(&tables, tables.geometries);
    same::<TlasPackage>(&tables, tables.packages);
    same::<Option<TlasInstance>>(&tables, tables.slots);
    same::<Action>(&tables, &actions);
    // geometries of version 1 are the same records
    assert_eq!(World::narrow().tables().records::<BlasGeometry>(), tables.records::<BlasGeometry>());
    // a float by its bits
    let slot = Some(TlasInstance { transform: [f32::from_bits(0xffa0_0001); 12], ..Default::default() });
    let slots = table(&[slot]).unwrap();
    assert_eq!(Tables { slots: &slots, ..Default::default() }.records::<Option<TlasInstance>>().unwrap(), [slot]);
    // a value that a record can't have is named
    let blases = [9; 28];
    let misfit = Tables { blases: &blases, ..Default::default() }.records::<Blas>().unwrap_err();
    assert_eq!(misfit.to_string(), "section 2, record 0: kind is 9, may be 0 or 1");
}

#[test]
fn records_are_as_long_as_their_sections_say() {
    let lengths = [
        table(&[Buffer::default()]).unwrap().len(),
        table(&[Blas::default()]).unwrap().len(),
        table(&[BlasGeometrySizeDescriptor::default()]).unwrap().len(),
        table(&[Tlas::default()]).unwrap().len(),
        table(&[BlasBuildEntry::default()]).unwrap().len(),
        table(&[BlasGeometry::default()]).unwrap().len(),
        table(&[TlasPackage::default()]).unwrap().len(),
        table(&[None::<TlasInstance>]).unwrap().len(),
        table(&[Action::Build]).unwrap().len(),
    ];
    assert_eq!(lengths, Version::Two.sections().each_ref().map(|s| s.bytes));
}

#[test]
fn refused_sheets_are_named() {
    let sheet = fs::read(shipped("usable.sheet")).unwrap();
    let named = |bytes: &[u8]| {
        let refused = read_sheet(bytes).unwrap_err();
        (refused.error.number(), refused.misfit.unwrap().to_string())
    };
    let with = |at: usize, byte: u8| {
        let mut changed = sheet.clone();
        changed[at] = byte;
        named(&changed)
    };
    assert_eq!(with(0, 7), (1, "byte 0: version is 7, may be 1 or 2".into()));
    assert_eq!(named(&sheet[..20]), (2, "byte 15: buffer 0, size has 8 bytes, of which 5 bytes are there".into()));
    assert_eq!(named(&[&sheet[..], &[1, 2]].concat()), (3, format!("byte {}: 2 bytes are after the sheet's end", sheet.len())));
    assert_eq!(with(14, 9), (4, "byte 13: count of buffers is 2305, may be 0 to 256".into()));
    assert_eq!(with(23, 9), (5, "byte 23: buffer 0, marks is 9, may be 0 to 3".into()));
    assert_eq!(with(2, 0), (5, "byte 1: alignment is 0, may be 1 to 4294967295".into()));
    // one declared geometry of a Blas that isn't there
    let declared = 15 + 9 + 2 + 28 + 2;
    assert_eq!(with(declared, 1), (5, format!("byte {declared}: declared 0, blas is 1, may be 0 only")));
    // an entry that draws two
    let entry = declared + 18 + 2 + 22 + 2;
    assert_eq!(with(entry + 3, 2), (5, format!("byte {}: count of geometries is 1, the entries draw 2", entry + 5)));
}

#[test]
fn refused_actions_are_named() {
    let submit = |actions: &Actions, counts: &mut [u16], dependencies: &mut [u16]| {
        let (mut blases, mut tlases) = (table(&[Blas::default(); 2]).unwrap(), table(&[Tlas::default()]).unwrap());
        let lent = Lent { blases: &mut blases, tlases: &mut tlases, dependency_counts: counts, dependencies };
        let mut indices = CommandIndices { next_acceleration_structure_build_command_index: 5, ..Default::default() };
        let refused = validate_acceleration_structure_actions(&mut indices, lent, actions).unwrap_err();
        (refused.number, refused.action, refused.misfit.map_or("".into(), |m| m.to_string()))
    };
    let fresh = |actions: &Actions| submit(actions, &mut [0], &mut [0; 512]);
    let made = |make: &dyn Fn(&mut Actions)| {
        let mut actions = Actions::default();
        actions.mark_blas(BlasId(0));
        make(&mut actions);
        fresh(&actions)
    };
    assert_eq!(made(&|a| a.use_tlas(TlasId(9))), (6, 1, "action 1: its tlas is 9, there is 1 tlas".into()));
    assert_eq!(made(&|a| a.mark_tlas(TlasId(9))), (6, 1, "action 1: its tlas is 9, there is 1 tlas".into()));
    assert_eq!(made(&|a| a.mark_blas(BlasId(9))), (6, 1, "action 1: its blas is 9, there are 2 blases".into()));
    assert_eq!(made(&|a| a.build(&[BlasId(1), BlasId(2)], &[]).unwrap()), (6, 1, "action 1: blas is 2, there are 2 blases".into()));
    assert_eq!(
        made(&|a| a.build(&[], &[(TlasId(0), &[]), (TlasId(3), &[])]).unwrap()),
        (6, 1, "action 1: tlas is 3, there is 1 tlas".into())
    );
    assert_eq!(
        made(&|a| a.build(&[BlasId(0)], &[(TlasId(0), &[BlasId(0)]), (TlasId(0), &[BlasId(1), BlasId(5)])]).unwrap()),
        (6, 1, "action 1, list of its tlas 1: blas is 5, there are 2 blases".into())
    );
    assert_eq!(
        made(&|a| a.build(&[BlasId(0); 65], &[]).unwrap()),
        (4, 1, "action 1: count of blases is 65, may be 0 to 64".into())
    );
    assert_eq!(made(&|a| a.actions.extend([7, 0, 0, 0])), (5, 1, "action 1: kind is 7, may be 1 to 5".into()));
    assert_eq!(made(&|a| a.actions.extend([2, 0])), (5, 1, "action 1: an action has 4 cells, of which 2 are there".into()));
    assert_eq!(made(&|a| a.actions.extend([1, 0, 1, 0])), (5, 1, "action 1: its lists end before cell 1, 0 cells are lent".into()));
    // the start
    let none = Actions::default();
    assert_eq!(submit(&none, &mut [1], &mut [8; 512]), (6, 0, "starting list of tlas 0: blas is 8, there are 2 blases".into()));
    assert_eq!(
        submit(&none, &mut [513], &mut [0; 512]),
        (4, 0, "starting list of tlas 0: count of blases is 513, may be 0 to 512".into())
    );
    assert_eq!(submit(&none, &mut [0], &mut [0; 511]), (39, 0, "".into()));
}

#[test]
fn the_recorded_action_is_that_of_the_build() {
    let world = World::new();
    let tables = world.tables();
    let mut outputs = Outputs::for_tables(&tables);
    let recorded = build_acceleration_structures(256, &tables, outputs.lend()).unwrap().recorded().unwrap();
    let mut actions = Actions::default();
    actions.recorded(&recorded, &outputs.lists).unwrap();
    let mut by_hand = Actions::default();
    by_hand.build(&[BlasId(0), BlasId(1)], &[(TlasId(0), &[BlasId(0), BlasId(1)])]).unwrap();
    assert_eq!(actions, by_hand);
    // lists that are not those which it wrote
    let misfit = actions.recorded(&recorded, &outputs.lists[1..]).unwrap_err();
    assert_eq!(misfit.to_string(), "action 1: lists is 5, may be 6 to 18446744073709551615");
    assert_eq!(actions, by_hand);
}

/// A number of Marsaglia's xorshift.
fn next(state: &mut u64) -> u64 {
    *state ^= *state << 13;
    *state ^= *state >> 7;
    *state ^= *state << 17;
    *state
}

#[test]
fn whatever_is_refused_is_named_and_nothing_panics() {
    let sheets = ["collection.sheet", "usable.sheet"].map(|name| fs::read(shipped(name)).unwrap());
    let mut state = 0x5eed;
    let mut seen = [0; 45];
    for round in 0..4000 {
        let mut sheet = sheets[round % 2].clone();
        for _ in 0..=next(&mut state) % 3 {
            let at = usize::try_from(next(&mut state)).unwrap() % sheet.len();
            sheet[at] = next(&mut state).to_le_bytes()[0];
        }
        if next(&mut state) & 7 == 0 {
            sheet.truncate(usize::try_from(next(&mut state)).unwrap() % sheet.len());
        }
        let read = match read_sheet(&sheet) {
            Ok(read) => read,
            Err(refused) => {
                seen[usize::try_from(refused.error.number()).unwrap()] += 1;
                let misfit = refused.misfit.as_ref().expect("it is named").to_string();
                assert!(misfit.starts_with(&format!("byte {}: ", refused.place)), "{misfit}");
                assert!(refused.to_string().ends_with(&misfit));
                continue;
            }
        };
        let mut tables = read.tables();
        let cut = usize::try_from(next(&mut state)).unwrap() % 12;
        if cut == 0 {
            tables.geometries = &tables.geometries[..tables.geometries.len() / 2];
        } else if cut == 1 {
            tables.slots = &tables.slots[..tables.slots.len() / 2];
        }
        let _ = tables.records::<BlasGeometry>().map(|records| table(&records).unwrap());
        let built = build_acceleration_structures(read.alignment, &tables, Outputs::for_tables(&tables).lend());
        match built {
            Ok(Built::Recorded(recorded)) => assert_eq!(recorded.written, Written::for_tables(&tables)),
            Ok(Built::NothingRecorded { init_ranges }) => assert_eq!(init_ranges, Written::for_tables(&tables).init_ranges),
            Err(refused) => {
                seen[usize::try_from(refused.number).unwrap()] += 1;
                assert_ne!(refused.number, 39);
                assert_eq!(refused.misfit.is_some(), [4, 5, 6].contains(&refused.number), "{refused:?}");
            }
        }
        // the same bytes as cells of actions and lists
        let cells: Vec<u16> = sheet.chunks_exact(2).map(|b| u16::from_le_bytes([b[0], b[1]]) % 70).collect();
        let actions = Actions { actions: cells.iter().take(9).map(|c| u32::from(*c) % 6).collect(), lists: cells.clone() };
        let (mut blases, mut tlases) = (tables.blases.to_vec(), tables.tlases.to_vec());
        let mut counts = vec![0; tlases.len() / 22];
        let mut dependencies = vec![0; counts.len() * DEPENDENCY_ROOM];
        let lent =
            Lent { blases: &mut blases, tlases: &mut tlases, dependency_counts: &mut counts, dependencies: &mut dependencies };
        let mut indices = CommandIndices { next_acceleration_structure_build_command_index: 9, ..Default::default() };
        if let Err(refused) = validate_acceleration_structure_actions(&mut indices, lent, &actions) {
            assert_eq!(refused.misfit.is_some(), [4, 5, 6].contains(&refused.number), "{refused:?}");
        }
    }
    assert!([1, 2, 4, 5, 6, 12, 13, 23].iter().all(|n| seen[*n] > 0), "{seen:?}");
}

/// A build of entries without geometries and packages without slots, each of a Blas or a Tlas of its own with such a scratch size,
/// and what became of painted outputs. The ids run the other way, so that none is taken for the entry or the package.
fn build_sized(alignment: u32, blas_sizes: &[u64], tlas_sizes: &[u64]) -> (Result<Built, BuildRefused>, Outputs) {
    let back = |i: usize, of: &[u64]| u16::try_from(of.len() - 1 - i).unwrap();
    let blas = |size: &u64| Blas { build_scratch_size: *size, flags: ALLOW_COMPACTION, ..Default::default() };
    let tlas = |size: &u64| Tlas { build_scratch_size: *size, ..Default::default() };
    let entry = |i| BlasBuildEntry { blas: BlasId(back(i, blas_sizes)), ..Default::default() };
    let package = |i| TlasPackage { tlas: TlasId(back(i, tlas_sizes)), ..Default::default() };
    let blases = table(&blas_sizes.iter().rev().map(blas).collect::<Vec<Blas>>()).unwrap();
    let tlases = table(&tlas_sizes.iter().rev().map(tlas).collect::<Vec<Tlas>>()).unwrap();
    let entries = table(&(0..blas_sizes.len()).map(entry).collect::<Vec<BlasBuildEntry>>()).unwrap();
    let packages = table(&(0..tlas_sizes.len()).map(package).collect::<Vec<TlasPackage>>()).unwrap();
    let tables = Tables { blases: &blases, tlases: &tlases, entries: &entries, packages: &packages, ..Default::default() };
    let mut outputs = painted(&tables);
    let built = build_acceleration_structures(alignment, &tables, outputs.lend());
    if built.is_err() {
        assert_eq!(outputs, painted(&tables), "a refused build writes nothing");
    }
    (built, outputs)
}

fn painted(tables: &Tables) -> Outputs {
    let mut outputs = Outputs::for_tables(tables);
    outputs.blas_offsets.fill(0x5a5a);
    outputs.tlas_offsets.fill(0x5a5a);
    outputs.staging_ranges.fill(0x5a5a);
    outputs.compactable.fill(0x5a5a);
    outputs.lists.fill(0x5a5a);
    outputs
}

const TOP: u64 = u64::MAX;
const HALF: u64 = 1 << 63;

#[test]
fn out_of_memory_names_the_entry_or_the_package() {
    let refused = |alignment, blas_sizes: &[u64], tlas_sizes: &[u64]| {
        let refused = build_sized(alignment, blas_sizes, tlas_sizes).0.unwrap_err();
        assert!(refused.misfit.is_none());
        let BuildAccelerationStructureError::OutOfMemory(total) = refused.error else { panic!("{refused:?}") };
        let f0 = if total == RunningTotal::Entries { 1 } else { 2 };
        assert_eq!((refused.number, refused.e[1], refused.figures), (37, 0, [f0, 0, 0]), "{refused:?}");
        (total, refused.e[0], refused.to_string())
    };
    let entry = |i: u64| (RunningTotal::Entries, i, format!("refused 37: scratch 2^64 - 1, entry {i}"));
    let package = |i: u64| (RunningTotal::Packages, i, format!("refused 37: scratch 2^64 - 1, package {i}"));
    // one size alone, as it is and by rounding
    assert_eq!(refused(1, &[TOP], &[]), entry(0));
    assert_eq!(refused(256, &[7, TOP - 254], &[]), entry(1));
    assert_eq!(refused(1, &[], &[TOP]), package(0));
    assert_eq!(refused(3, &[], &[0, TOP]), package(1));
    // a sum that reaches it, that would pass it, and that would be 0
    assert_eq!(refused(1, &[HALF, 5, HALF - 6, 9], &[]), entry(2));
    assert_eq!(refused(256, &[HALF, 0, TOP - 255 - HALF, 1], &[]), entry(3));
    assert_eq!(refused(1, &[HALF, HALF], &[]), entry(1));
    assert_eq!(refused(1, &[3], &[HALF, HALF]), package(1));
    assert_eq!(refused(1, &[1 << 58; 64], &[]), entry(63));
    assert_eq!(refused(1, &[], &[1 << 59; 32]), package(31));
    // the first of several, and an entry before a package, however late it is
    assert_eq!(refused(1, &[TOP, TOP, 0], &[TOP]), entry(0));
    assert_eq!(refused(1, &[1, TOP - 2, 1], &[TOP]), entry(2));
    assert_eq!(refused(1, &[1, TOP - 2], &[1, TOP - 1]), package(1));
    // one less of each total is accepted; the two totals are not added
    let (built, outputs) = build_sized(1, &[HALF, 5, HALF - 7], &[HALF, HALF - 2]);
    assert_eq!(built.unwrap().scratch_size(), TOP - 1);
    assert_eq!((&outputs.blas_offsets[..], &outputs.tlas_offsets[..]), (&[0, HALF, HALF + 5][..], &[0, HALF][..]));
}

#[test]
fn out_of_memory_is_where_a_sum_says() {
    let mut state = 0x5eed;
    let mut seen = [0; 3];
    for _ in 0..2000 {
        let alignment = [1, 256, 255, u32::MAX][usize::try_from(next(&mut state) % 4).unwrap()];
        let mut sizes = |most: u64| -> Vec<u64> {
            let n = next(&mut state) % (most + 1);
            (0..n).map(|_| next(&mut state) >> (next(&mut state) % 12)).collect()
        };
        let (blas_sizes, tlas_sizes) = (sizes(64), sizes(32));
        let reached = |sizes: &[u64]| {
            let mut total = 0;
            sizes.iter().position(|size| {
                total += u128::from(*size).next_multiple_of(alignment.into());
                total >= TOP.into()
            })
        };
        let by_hand = match (reached(&blas_sizes), reached(&tlas_sizes)) {
            (Some(i), _) => Some((RunningTotal::Entries, i)),
            (None, i) => i.map(|i| (RunningTotal::Packages, i)),
        };
        let told = build_sized(alignment, &blas_sizes, &tlas_sizes).0.err().map(|refused| match refused.error {
            BuildAccelerationStructureError::OutOfMemory(total) => (total, usize::try_from(refused.e[0]).unwrap()),
            _ => panic!("{refused:?}"),
        });
        assert_eq!(told, by_hand, "{alignment} {blas_sizes:?} {tlas_sizes:?}");
        seen[told.map_or(0, |(total, _)| if total == RunningTotal::Entries { 1 } else { 2 })] += 1;
    }
    assert!(seen.iter().all(|n| *n > 50), "{seen:?}");
}

#[test]
fn out_of_memory_keeps_its_place() {
    use BuildAccelerationStructureError as E;
    let with = |blas: Blas, tlas: Tlas| {
        let world = World::new();
        let (blases, tlases) = (table(&[blas, world.tables().records::<Blas>().unwrap()[1]]).unwrap(), table(&[tlas]).unwrap());
        let tables = Tables { blases: &blases, tlases: &tlases, ..world.tables() };
        let refused = build_acceleration_structures(256, &tables, Outputs::for_tables(&tables).lend()).unwrap_err();
        (refused.error, refused.e)
    };
    let blas = Blas { flags: USE_TRANSFORM, build_scratch_size: TOP, destroyed: true, ..Default::default() };
    let tlas = Tlas { build_scratch_size: TOP, max_instance_count: 2, destroyed: true, ..Default::default() };
    // after too many slots, before what is destroyed or compacted
    let few = Tlas { max_instance_count: 1, ..tlas };
    assert_eq!(with(blas, few), (E::TlasInstanceCountExceeded { count: 2, most: 1 }, [0, 0]));
    assert_eq!(with(blas, tlas), (E::OutOfMemory(RunningTotal::Entries), [0, 0]));
    let compacted = Blas { build_scratch_size: 300, compacted_state: BlasCompactState::Compacted, destroyed: false, ..blas };
    assert_eq!(with(compacted, tlas), (E::OutOfMemory(RunningTotal::Packages), [0, 0]));
    // and before too little room
    let blases = table(&[Blas { build_scratch_size: TOP, ..Default::default() }]).unwrap();
    let entries = table(&[BlasBuildEntry::default()]).unwrap();
    let tables = Tables { blases: &blases, entries: &entries, ..Default::default() };
    let refused = build_acceleration_structures(1, &tables, LentOutputs::default()).unwrap_err();
    assert_eq!((refused.error, refused.e), (E::OutOfMemory(RunningTotal::Entries), [0, 0]));
}

#[test]
fn errors_speak_the_librarys_words() {
    fn is_error<E: std::error::Error + Send + Sync + 'static>(_: &E) {}
    let sheet = fs::read(shipped("refused-build.sheet")).unwrap();
    let read = read_sheet(&sheet).unwrap();
    let tables = read.tables();
    let refused = build_acceleration_structures(read.alignment, &tables, Outputs::for_tables(&tables).lend()).unwrap_err();
    is_error(&refused);
    assert_eq!(refused.to_string(), "refused 23: region overruns buffer, entry 0, geometry 0, offset 0, region 960, size 959");

    let sheet = fs::read(shipped("damaged.sheet")).unwrap();
    let refused = read_sheet(&sheet).unwrap_err();
    is_error(&refused);
    assert!(refused.to_string().starts_with("refused 2: sheet ends early, byte 1998; byte 1998: slot "), "{refused}");

    let mut actions = Actions::default();
    actions.build(&[BlasId(0)], &[(TlasId(0), &[BlasId(0)])]).unwrap();
    actions.mark_blas(BlasId(0));
    actions.use_tlas(TlasId(0));
    let (mut blases, mut tlases) = (table(&[Blas::default()]).unwrap(), table(&[Tlas::default()]).unwrap());
    let (mut counts, mut dependencies) = ([0], [0; DEPENDENCY_ROOM]);
    let lent = Lent { blases: &mut blases, tlases: &mut tlases, dependency_counts: &mut counts, dependencies: &mut dependencies };
    let mut indices = CommandIndices { next_acceleration_structure_build_command_index: 5, ..Default::default() };
    let refused = validate_acceleration_structure_actions(&mut indices, lent, &actions).unwrap_err();
    is_error(&refused);
    assert_eq!(refused.to_string(), "refused 44: Blas newer than Tlas, use of a Tlas at action 2, Blas 0, Tlas 0");

    let instance = TlasInstance { custom_data: 1 << 24, ..Default::default() };
    let refused = append_instance(&tlases, &blases, TlasId(0), &instance, &mut [0; 64], 0).unwrap_err();
    is_error(&refused);
    assert!(refused.to_string().starts_with("refused 34: custom data from 2^24 on"), "{refused}");
    assert!(OutputTooShort.to_string().starts_with("refused 39: lent output too short"));
    is_error(&OutputTooShort);
    is_error(&table(&[BlasGeometry { index_buffer: Some(BufferId(65535)), ..Default::default() }]).unwrap_err());

    let mut text = [0; 6381];
    let sheet = fs::read(shipped("rebuilt.sheet")).unwrap();
    let n = explain(&sheet, &mut text).unwrap();
    let told = std::str::from_utf8(&text[..n]).unwrap();
    assert!(told.ends_with("next 11\nrefused 44: Blas newer than Tlas, use of a Tlas at action 4, Blas 1, Tlas 1\n"), "{told}");
    assert_eq!(explain(&sheet, &mut text[..n - 1]), Err(OutputTooShort));
}
