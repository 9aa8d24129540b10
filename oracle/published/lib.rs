//! wgpu-core 30.0.1's own functions behind stand-ins. Modules marked UNCHANGED take the whole text of a published file at
//! compile time, from the folder that the environment variable WGPU_SRC names; none of it stands here. All else is a
//! stand-in, or drives them.
#![allow(dead_code, unused_imports, unused_variables, unexpected_cfgs, unused_macros)]
#![allow(clippy::all)]

extern crate alloc;

pub mod drive;
pub mod input;
mod rec;
mod stand_ins;

macro_rules! resource_log {
    ($($t:tt)*) => {{}};
}
pub(crate) use resource_log;
macro_rules! api_log {
    ($($t:tt)*) => {{}};
}
pub(crate) use api_log;

// names at wgpu-core's crate root
pub type Index = u32;
pub type Epoch = u32;
pub(crate) use stand_ins::hal_label;
pub(crate) use stand_ins::{
    binding_model, device, global, hub, indirect_validation, init_tracker, instance, lock, pipeline, resource, track,
};

/// The text of src/command/ray_tracing.rs, to look a panic's line up in.
pub const RT_TEXT: &str = include_str!(concat!(env!("WGPU_SRC"), "/src/command/ray_tracing.rs"));

/// UNCHANGED src/id.rs
pub mod id {
    include!(concat!(env!("WGPU_SRC"), "/src/id.rs"));
}
/// UNCHANGED src/ray_tracing.rs
pub mod ray_tracing {
    include!(concat!(env!("WGPU_SRC"), "/src/ray_tracing.rs"));
}
/// UNCHANGED src/scratch.rs
pub mod scratch {
    include!(concat!(env!("WGPU_SRC"), "/src/scratch.rs"));
}
/// UNCHANGED src/snatch.rs
pub mod snatch {
    include!(concat!(env!("WGPU_SRC"), "/src/snatch.rs"));
}

pub mod command {
    /// UNCHANGED src/command/ray_tracing.rs: build_acceleration_structures, iter_blas,
    /// map_blas, build_blas, validate_acceleration_structure_actions, and the id resolving
    /// command_encoder_build_acceleration_structures and
    /// command_encoder_mark_acceleration_structures_built.
    pub(crate) mod ray_tracing {
        include!(concat!(env!("WGPU_SRC"), "/src/command/ray_tracing.rs"));
    }
    /// UNCHANGED src/command/encoder.rs (EncodingState)
    pub(crate) mod encoder {
        include!(concat!(env!("WGPU_SRC"), "/src/command/encoder.rs"));
    }
    /// UNCHANGED src/command/encoder_command.rs (ReferenceType, ArcReferences, Command)
    pub(crate) mod encoder_command {
        include!(concat!(env!("WGPU_SRC"), "/src/command/encoder_command.rs"));
    }
    pub use encoder_command::{ArcCommand, ArcReferences, Command, IdReferences, ReferenceType};

    // ---- stand-ins for the rest of src/command/mod.rs ---------------------------------
    use crate::device::{queue::TempResource, Device, DeviceError};
    use crate::global::Global;
    use crate::init_tracker::BufferInitTrackerAction;
    use crate::lock::Mutex;
    use crate::ray_tracing::{AsAction, BuildAccelerationStructureError};
    use crate::resource::{Buffer, InvalidResourceError};
    use crate::track::Tracker;
    use alloc::{boxed::Box, sync::Arc, vec::Vec};
    use thiserror::Error;
    use wgt::error::{ErrorType, WebGpuError};

    pub(crate) mod memory_init {
        #[derive(Default)]
        pub(crate) struct CommandBufferTextureMemoryActions;
    }
    pub(crate) mod query {
        #[derive(Default)]
        pub(crate) struct QuerySetWrites;
        pub(crate) struct DeferredQuerySetResolve;
    }
    // named by encoder_command.rs only; never made
    #[derive(Clone, Debug)]
    pub struct BasePass<C, E>(pub core::marker::PhantomData<(C, E)>);
    #[derive(Clone, Debug)]
    pub struct ComputeCommand<R: ReferenceType>(pub core::marker::PhantomData<R>);
    #[derive(Clone, Debug)]
    pub struct RenderCommand<R: ReferenceType>(pub core::marker::PhantomData<R>);
    #[derive(Clone, Debug)]
    pub struct PassTimestampWrites<Q>(pub Q);
    #[derive(Clone, Debug)]
    pub struct ColorAttachments<T>(pub T);
    #[derive(Clone, Debug)]
    pub struct ResolvedRenderPassDepthStencilAttachment<T>(pub T);
    #[derive(Debug)]
    pub struct RenderBundle;

    #[derive(Clone, Debug, Error)]
    pub enum EncoderStateError {
        #[error("invalid")]
        Invalid,
    }
    impl WebGpuError for EncoderStateError {
        fn webgpu_error_type(&self) -> ErrorType {
            ErrorType::Validation
        }
    }
    #[derive(Clone, Debug, Error)]
    pub enum CommandEncoderError {
        #[error(transparent)]
        State(#[from] EncoderStateError),
        #[error(transparent)]
        BuildAccelerationStructure(#[from] BuildAccelerationStructureError),
    }

    #[derive(Clone, Copy, Debug, PartialEq, Eq)]
    pub enum EncodingApi {
        Wgpu,
        Raw,
    }

    pub struct InnerCommandEncoder {
        pub(crate) raw: Box<dyn hal::DynCommandEncoder>,
        pub(crate) list: Vec<Box<dyn hal::DynCommandBuffer>>,
    }

    pub struct CommandBufferMutable {
        pub(crate) encoder: InnerCommandEncoder,
        pub(crate) trackers: Tracker,
        pub(crate) buffer_memory_init_actions: Vec<BufferInitTrackerAction>,
        pub(crate) texture_memory_actions: memory_init::CommandBufferTextureMemoryActions,
        pub(crate) as_actions: Vec<AsAction>,
        pub(crate) temp_resources: Vec<TempResource>,
        pub(crate) indirect_draw_validation_resources: crate::indirect_validation::DrawResources,
        pub(crate) commands: Vec<Command<ArcReferences>>,
        pub(crate) query_set_writes: query::QuerySetWrites,
        pub(crate) deferred_query_set_resolves: Vec<query::DeferredQuerySetResolve>,
    }
    impl CommandBufferMutable {
        pub(crate) fn new() -> Self {
            CommandBufferMutable {
                encoder: InnerCommandEncoder { raw: Box::new(crate::stand_ins::Encoder), list: Vec::new() },
                trackers: Tracker::default(),
                buffer_memory_init_actions: Vec::new(),
                texture_memory_actions: Default::default(),
                as_actions: Vec::new(),
                temp_resources: Vec::new(),
                indirect_draw_validation_resources: Default::default(),
                commands: Vec::new(),
                query_set_writes: Default::default(),
                deferred_query_set_resolves: Vec::new(),
            }
        }
    }

    /// Encoder states are not held: the stand-in is always recording and keeps the first error.
    pub struct CommandEncoderStatus {
        pub(crate) inner: CommandBufferMutable,
        pub(crate) error: Option<CommandEncoderError>,
    }
    impl CommandEncoderStatus {
        pub(crate) fn push_with<F: FnOnce() -> Result<ArcCommand, E>, E: Clone + Into<CommandEncoderError>>(
            &mut self,
            f: F,
        ) -> Result<(), EncoderStateError> {
            match f() {
                Ok(cmd) => self.inner.commands.push(cmd),
                Err(err) => self.error = Some(err.into()),
            }
            Ok(())
        }
        pub(crate) fn with_buffer<F: FnOnce(&mut CommandBufferMutable) -> Result<(), E>, E: Clone + Into<CommandEncoderError>>(
            &mut self,
            _api: EncodingApi,
            f: F,
        ) -> Result<(), EncoderStateError> {
            if let Err(err) = f(&mut self.inner) {
                self.error = Some(err.into());
            }
            Ok(())
        }
    }
    pub struct CommandEncoder {
        pub(crate) device: Arc<Device>,
        pub(crate) data: Mutex<CommandEncoderStatus>,
    }

    impl Global {
        /// named by the unchanged text beside its own two for Blases and Tlases
        fn resolve_buffer_id(&self, id: crate::id::BufferId) -> Result<Arc<Buffer>, InvalidResourceError> {
            match self.hub.buffers.get(id) {
                crate::hub::Fallible::Valid(b) => Ok(b),
                crate::hub::Fallible::Invalid(i) => Err(InvalidResourceError(i)),
            }
        }
    }
}
