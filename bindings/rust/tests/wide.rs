//! Builds whose geometries begin past 2^32: the same checks, over whole numbers.
use BuildAccelerationStructureError as E;
use zakvind::*;

const TOP: u64 = u64::MAX;
const FAR: u64 = 1 << 32;

/// A build of one geometry of a kind over a buffer of such a size: the ranges that it asks to be initialised, or why it is refused.
fn build(kind: Kind, size: u64, first: u64, count: u32, stride: u64) -> Result<Vec<u64>, E> {
    let buffers = table(&[Buffer { size, blas_input: true, destroyed: false }]).unwrap();
    let blases = table(&[Blas { kind, build_scratch_size: 1, ..Default::default() }]).unwrap();
    let declared = table(&[BlasGeometrySizeDescriptor { count, ..Default::default() }]).unwrap();
    let entries = table(&[BlasBuildEntry { kind, geometry_count: 1, ..Default::default() }]).unwrap();
    let geometries = table(&[BlasGeometry { first, count, stride, ..Default::default() }]).unwrap();
    let tables = Tables {
        buffers: &buffers,
        blases: &blases,
        declared: &declared,
        entries: &entries,
        geometries: &geometries,
        ..Default::default()
    };
    let mut outputs = Outputs::for_tables(&tables);
    let answer = build_acceleration_structures(1, &tables, outputs.lend());
    if let Ok(first) = u32::try_from(first) {
        // in version 1 the same is answered
        let mut narrow = geometries.clone();
        narrow.splice(5..13, first.to_le_bytes());
        let tables = Tables { version: Version::One, geometries: &narrow, ..tables };
        let mut others = Outputs::for_tables(&tables);
        assert_eq!(build_acceleration_structures(1, &tables, others.lend()), answer);
        assert_eq!(others, outputs);
    }
    answer.map(|_| outputs.init_ranges).map_err(|refused| refused.error)
}

fn overruns(offset: u64, region: u64, size: u64) -> Result<Vec<u64>, E> {
    Err(E::InsufficientBufferSize { offset, region, size })
}

#[test]
fn boxes_past_four_gigabytes() {
    let boxes = |size, first, count, stride| build(Kind::Boxes, size, first, count, stride);
    for first in [0, FAR - 8, FAR, FAR + 8, 1 << 40, TOP - 47 - 8] {
        // 47 below 2^64 - 1 is no multiple of eight
        let first = first / 8 * 8;
        let end = first + 48;
        assert_eq!(boxes(end, first, 2, 24), Ok(vec![0, first, end]));
        assert_eq!(boxes(end - 1, first, 2, 24), overruns(first, 48, end - 1));
        assert_eq!(boxes(TOP, first + 1, 2, 24), Err(E::UnalignedAabbPrimitiveOffset));
        assert_eq!(boxes(TOP, first, 2, 16), Err(E::InvalidAabbStride { stride: 16 }));
    }
    // an end past 2^64 - 1, and none at all
    assert_eq!(boxes(TOP, TOP - 7, 2, 24), overruns(TOP - 7, 48, TOP));
    assert_eq!(boxes(TOP, TOP - 7, 0, 24), Ok(vec![0, TOP - 7, TOP - 7]));
    assert_eq!(boxes(TOP - 8, TOP - 7, 0, 24), overruns(TOP - 7, 0, TOP - 8));
    assert_eq!(boxes(TOP, TOP, 2, 24), Err(E::UnalignedAabbPrimitiveOffset));
    // 26 speaks of the stride and of count times stride, wherever they begin
    let limited = |offset, count: u32, stride| Err(E::OffsetLimitedTo4GB { offset, count: count.into(), stride });
    for first in [0, FAR, TOP - 7] {
        assert_eq!(boxes(TOP, first, 0, FAR), limited(0, 0, FAR));
        assert_eq!(boxes(TOP, first, 1 << 27, 32), limited(FAR, 1 << 27, 32));
    }
}

#[test]
fn vertices_past_four_gigabytes() {
    let triangles = |size, first, count, stride| build(Kind::Triangles, size, first, count, stride);
    for first in [0, FAR - 1, FAR, FAR + 1, 1 << 40] {
        let (start, end) = (first * 12, first * 12 + 36);
        assert_eq!(triangles(end, first, 3, 12), Ok(vec![0, start, end]));
        assert_eq!(triangles(end - 1, first, 3, 12), overruns(start, 36, end - 1));
    }
    assert_eq!(triangles(TOP, TOP - 3, 3, 1), Ok(vec![0, TOP - 3, TOP]));
    assert_eq!(triangles(TOP - 1, TOP - 3, 3, 1), overruns(TOP - 3, 3, TOP - 1));
    // a sum past 2^64 - 1, and products past it, which stop there
    assert_eq!(triangles(TOP, TOP - 2, 3, 1), overruns(TOP - 2, 3, TOP));
    assert_eq!(triangles(TOP, TOP, 3, 12), overruns(TOP, 36, TOP));
    assert_eq!(triangles(TOP, 1 << 63, 3, 2), overruns(TOP, 6, TOP));
    assert_eq!(triangles(TOP, FAR, 3, FAR), overruns(TOP, 3 * FAR, TOP));
    assert_eq!(triangles(TOP, FAR, 3, TOP), overruns(TOP, TOP, TOP));
    // nothing is read of what has no stride, wherever it begins
    assert_eq!(triangles(0, TOP, u32::MAX, 0), Ok(vec![0, 0, 0]));
}

#[test]
fn a_geometry_past_four_gigabytes_is_read_back() {
    for first in [FAR - 1, FAR, TOP] {
        let geometries = [BlasGeometry { first, count: 7, stride: 12, ..Default::default() }];
        let bytes = table(&geometries).unwrap();
        assert_eq!(bytes.len(), WIDE_GEOMETRY_BYTES);
        let entries = table(&[BlasBuildEntry { geometry_count: 1, ..Default::default() }]).unwrap();
        let tables = Tables { entries: &entries, geometries: &bytes, ..Default::default() };
        assert_eq!(tables.records::<BlasGeometry>().unwrap(), geometries);
    }
}

/// Geometries that are lent as the other version's are refused, however many they are: none is taken for what it is not.
#[test]
fn geometries_of_the_other_version_are_refused() {
    for n in 1..=MOST_GEOMETRIES {
        let wide = table(&vec![BlasGeometry::default(); n]).unwrap();
        let narrow: Vec<u8> = wide.chunks(WIDE_GEOMETRY_BYTES).flat_map(|g| [&g[..9], &g[13..]].concat()).collect();
        let blases = table(&[Blas::default()]).unwrap();
        let entries = table(&[BlasBuildEntry { geometry_count: n.try_into().unwrap(), ..Default::default() }]).unwrap();
        for (version, geometries) in [(Version::One, &wide), (Version::Two, &narrow)] {
            let tables = Tables { version, blases: &blases, entries: &entries, geometries, ..Default::default() };
            let refused = build_acceleration_structures(1, &tables, LentOutputs::default()).unwrap_err();
            assert!(matches!((refused.error, refused.e[0]), (E::TooMany | E::InvalidValue, 6)), "{refused}");
        }
    }
}
