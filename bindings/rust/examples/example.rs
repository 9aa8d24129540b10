//! A triangle Blas and a Tlas over it: built, submitted, used, made stale by a mark, and refused. Every answer is held
//! against what it must be.
use zakvind::*;

fn main() -> Result<(), Box<dyn std::error::Error>> {
    let buffers = table(&[Buffer { size: 36, blas_input: true, destroyed: false }])?;
    let mut blases = table(&[Blas { build_scratch_size: 300, handle: 0xb1a5, ..Blas::default() }])?;
    let declared = table(&[BlasGeometrySizeDescriptor {
        count: 3,
        vertex_format: 1,
        min_vertex_stride: 12,
        stride_alignment: 4,
        ..Default::default()
    }])?;
    let mut tlases = table(&[Tlas { build_scratch_size: 100, max_instance_count: 1, ..Tlas::default() }])?;
    let entries = table(&[BlasBuildEntry { blas: BlasId(0), kind: Kind::Triangles, geometry_count: 1 }])?;
    let geometry = BlasGeometry { count: 3, stride: 12, buffer: BufferId(0), vertex_format: 1, ..Default::default() };
    let geometries = table(&[geometry])?;
    let packages = table(&[TlasPackage { tlas: TlasId(0), slot_count: 1 }])?;
    let mut transform = IDENTITY;
    transform[11] = f32::from_bits(0x7f80_0001);
    let instance = TlasInstance { blas: BlasId(0), custom_data: 7, mask: 255, transform };
    let slots = table(&[Some(instance)])?;
    let tables = Tables {
        buffers: &buffers,
        blases: &blases,
        declared: &declared,
        tlases: &tlases,
        entries: &entries,
        geometries: &geometries,
        packages: &packages,
        slots: &slots,
        ..Default::default()
    };

    let mut outputs = Outputs::for_tables(&tables);
    let built = build_acceleration_structures(256, &tables, outputs.lend())?;
    let Built::Recorded(recorded) = built else { panic!("{built:?}") };
    assert_eq!((recorded.scratch_size, recorded.written), (512, Written::for_tables(&tables)));
    assert_eq!((&outputs.blas_offsets[..], &outputs.tlas_offsets[..]), (&[0][..], &[0][..]));
    assert_eq!((&outputs.staging_ranges[..], &outputs.init_ranges[..]), (&[0, 64][..], &[0, 0, 36][..]));
    assert_eq!((&outputs.compactable[..], &outputs.lists[..]), (&[][..], &[0, 0, 1, 0][..]));
    assert_eq!(outputs.instances[44..48], 0x7f80_0001u32.to_le_bytes());
    assert_eq!(outputs.instances[48..64], [7, 0, 0, 255, 0, 0, 0, 0, 0xa5, 0xb1, 0, 0, 0, 0, 0, 0]);

    // one vertex too many: refused, with declared and given
    let four = table(&[BlasGeometry { count: 4, ..geometry }])?;
    let refused = build_acceleration_structures(256, &Tables { geometries: &four, ..tables }, LentOutputs::default());
    let error = BuildAccelerationStructureError::IncompatibleBlasVertexCount { declared: 3, given: 4 };
    let refused = refused.expect_err("four vertices of three");
    assert_eq!((refused.number, refused.error, refused.e), (13, error, [0, 0]));

    let mut appended = [0; 64];
    let used = append_instance(&tlases, &blases, TlasId(0), &instance, &mut appended, 0)?;
    assert_eq!((used, &appended[..]), (64, &outputs.instances[..]));
    let full = append_instance(&tlases, &blases, TlasId(0), &instance, &mut appended, used).expect_err("it is full");
    assert_eq!((full.error, full.used), (BuildAccelerationStructureError::OutputTooShort, 64));
    // and twice, by one call
    let mut two = [0; 128];
    let used = append_instances(&tlases, &blases, TlasId(0), &[instance; 2], &mut two, 0)?;
    assert_eq!((used, &two[..64], &two[64..]), (128, &appended[..], &appended[..]));
    let nowhere = TlasInstance { blas: BlasId(1), ..instance };
    let refused = append_instances(&tlases, &blases, TlasId(0), &[instance, nowhere], &mut two, 0).expect_err("there is no Blas 1");
    assert_eq!((refused.number, refused.position, refused.used), (6, Some(1), 0));
    // and read back, the signalling NaN too
    assert_eq!(read_instances(&two, &blases)?, [instance; 2]);
    two[64 + 52] = 1;
    let refused = read_instances(&two, &blases).expect_err("the second one's byte 52 is 1");
    assert_eq!((refused.error, refused.record), (ReadInstancesError::WordNotZero, Some(1)));

    // what was recorded, and a use; then the Blas is marked as built again, and the Tlas is older
    let mut indices = CommandIndices { active_submission_index: 0, next_acceleration_structure_build_command_index: 5 };
    let (mut dependency_counts, mut dependencies) = ([0; 1], [0; DEPENDENCY_ROOM]);
    let mut send = |actions: &Actions| {
        let lent = Lent {
            blases: &mut blases,
            tlases: &mut tlases,
            dependency_counts: &mut dependency_counts,
            dependencies: &mut dependencies,
        };
        let answer = validate_acceleration_structure_actions(&mut indices, lent, actions);
        (answer, indices.next_acceleration_structure_build_command_index)
    };
    let mut actions = Actions::default();
    actions.recorded(&recorded, &outputs.lists)?;
    actions.use_tlas(TlasId(0));
    assert_eq!(send(&actions), (Ok(()), 6));
    let mut actions = Actions::default();
    actions.mark_blas(BlasId(0));
    actions.use_tlas(TlasId(0));
    let (stale, next) = send(&actions);
    let stale = stale.expect_err("the Blas is newer");
    let error = ValidateAsActionsError::BlasNewerThenTlas(BlasId(0), TlasId(0));
    assert_eq!((stale.number, stale.error, stale.action, next), (44, error, 1, 7));
    let mut actions = Actions::default();
    actions.build(&[], &[(TlasId(0), &[BlasId(0)])])?;
    actions.use_tlas(TlasId(0));
    assert_eq!(send(&actions), (Ok(()), 8));
    let after = Tables { blases: &blases, tlases: &tlases, ..Default::default() };
    assert_eq!((after.records::<Blas>()?[0].built_index, after.records::<Tlas>()?[0].built_index), (6, 7));

    // a sheet without records
    let mut sheet = vec![1, 0, 1, 0, 0, 9, 0, 0, 0, 0, 0, 0, 0];
    sheet.extend([0; 18]);
    let read = read_sheet(&sheet)?;
    assert_eq!((read.alignment, read.counter, read.section(9)), (256, 9, Some(&[][..])));
    let cut = read_sheet(&sheet[..14]).expect_err("it is cut");
    assert_eq!((cut.error, cut.place), (SheetError::Truncated, 13));
    let mut text = [0; 40];
    assert_eq!(report(&sheet, &mut text), Ok(40));
    assert_eq!(&text, b"build 0 0 0 0 0 0\nsubmit 0 0 0 0\nnext 9\n");
    assert_eq!(report(&sheet, &mut text[..39]), Err(OutputTooShort));

    println!("Rust: all as it must be");
    Ok(())
}
