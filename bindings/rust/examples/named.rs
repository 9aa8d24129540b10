//! What a sheet's refusal is about, by name, for each sheet of a file: each stands after its length as a u32. A line for each: the field
//! or the id, or nothing where it is refused by another number or not at all.
use zakvind::*;

fn named(sheet: &[u8]) -> Option<String> {
    let read = match read_sheet(sheet) {
        Ok(read) => read,
        Err(refused) => return refused.misfit.map(|m| m.to_string()),
    };
    let tables = read.tables();
    let mut outputs = Outputs::for_tables(&tables);
    let built = match build_acceleration_structures(read.alignment, &tables, outputs.lend()) {
        Ok(built) => built,
        Err(refused) => return refused.misfit.map(|m| m.to_string()),
    };
    let mut actions = Actions::default();
    for action in tables.records::<Action>().ok()? {
        match (action, built) {
            (Action::Build, Built::Recorded(recorded)) => actions.recorded(&recorded, &outputs.lists).ok()?,
            // passed over, keeping its position: a Build of nothing would step the counter
            (Action::Build, Built::NothingRecorded { .. }) => return None,
            (Action::UseTlas(tlas), _) => actions.use_tlas(tlas),
            (Action::MarkBlas(blas), _) => actions.mark_blas(blas),
            (Action::MarkTlas(tlas), _) => actions.mark_tlas(tlas),
        }
    }
    let (mut blases, mut tlases) = (tables.blases.to_vec(), tables.tlases.to_vec());
    let mut dependency_counts = vec![0; tlases.len() / TLAS_BYTES];
    let mut dependencies = vec![0; dependency_counts.len() * DEPENDENCY_ROOM];
    let lent = Lent {
        blases: &mut blases,
        tlases: &mut tlases,
        dependency_counts: &mut dependency_counts,
        dependencies: &mut dependencies,
    };
    let mut indices = CommandIndices { active_submission_index: 0, next_acceleration_structure_build_command_index: read.counter };
    validate_acceleration_structure_actions(&mut indices, lent, &actions).err()?.misfit.map(|m| m.to_string())
}

fn main() -> Result<(), Box<dyn std::error::Error>> {
    let file = std::env::args().nth(1).ok_or("usage: named FILE")?;
    let bytes = std::fs::read(file)?;
    let mut rest = &bytes[..];
    let mut lines = String::new();
    while let Some((length, after)) = rest.split_first_chunk() {
        let (sheet, after) = after.split_at_checked(u32::from_le_bytes(*length).try_into()?).ok_or("the last sheet isn't whole")?;
        rest = after;
        lines += &named(sheet).unwrap_or_default();
        lines.push('\n');
    }
    print!("{lines}");
    Ok(())
}
