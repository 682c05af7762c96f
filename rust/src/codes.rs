//! PIMA 15740's codes by name, but for commands and responses. Written by tools/codes.py from python/ptp_proved/codes.tsv, which has the sources.

/// PIMA 15740: an event's code.
#[allow(non_snake_case, non_upper_case_globals)]
pub mod StandardEventCode {
    /// `0x4000`
    pub const Undefined: u16 = 0x4000;
    /// `0x4001`
    pub const CancelTransaction: u16 = 0x4001;
    /// `0x4002`
    pub const ObjectAdded: u16 = 0x4002;
    /// `0x4003`
    pub const ObjectRemoved: u16 = 0x4003;
    /// `0x4004`
    pub const StoreAdded: u16 = 0x4004;
    /// `0x4005`
    pub const StoreRemoved: u16 = 0x4005;
    /// `0x4006`
    pub const DevicePropChanged: u16 = 0x4006;
    /// `0x4007`
    pub const ObjectInfoChanged: u16 = 0x4007;
    /// `0x4008`
    pub const DeviceInfoChanged: u16 = 0x4008;
    /// `0x4009`
    pub const RequestObjectTransfer: u16 = 0x4009;
    /// `0x400A`
    pub const StoreFull: u16 = 0x400A;
    /// `0x400B`
    pub const DeviceReset: u16 = 0x400B;
    /// `0x400C`
    pub const StorageInfoChanged: u16 = 0x400C;
    /// `0x400D`
    pub const CaptureComplete: u16 = 0x400D;
    /// `0x400E`
    pub const UnreportedStatus: u16 = 0x400E;

    /// The name of a code; none for one that PIMA does not have.
    pub fn name(code: u16) -> Option<&'static str> {
        Some(match code {
            Undefined => "Undefined",
            CancelTransaction => "CancelTransaction",
            ObjectAdded => "ObjectAdded",
            ObjectRemoved => "ObjectRemoved",
            StoreAdded => "StoreAdded",
            StoreRemoved => "StoreRemoved",
            DevicePropChanged => "DevicePropChanged",
            ObjectInfoChanged => "ObjectInfoChanged",
            DeviceInfoChanged => "DeviceInfoChanged",
            RequestObjectTransfer => "RequestObjectTransfer",
            StoreFull => "StoreFull",
            DeviceReset => "DeviceReset",
            StorageInfoChanged => "StorageInfoChanged",
            CaptureComplete => "CaptureComplete",
            UnreportedStatus => "UnreportedStatus",
            _ => return None,
        })
    }
}

/// PIMA 15740: a property's code.
#[allow(non_snake_case, non_upper_case_globals)]
pub mod StandardPropertyCode {
    /// `0x5000`
    pub const Undefined: u16 = 0x5000;
    /// `0x5001`
    pub const BatteryLevel: u16 = 0x5001;
    /// `0x5002`
    pub const FunctionalMode: u16 = 0x5002;
    /// `0x5003`
    pub const ImageSize: u16 = 0x5003;
    /// `0x5004`
    pub const CompressionSetting: u16 = 0x5004;
    /// `0x5005`
    pub const WhiteBalance: u16 = 0x5005;
    /// `0x5006`
    pub const RGBGain: u16 = 0x5006;
    /// `0x5007`
    pub const FNumber: u16 = 0x5007;
    /// `0x5008`
    pub const FocalLength: u16 = 0x5008;
    /// `0x5009`
    pub const FocusDistance: u16 = 0x5009;
    /// `0x500A`
    pub const FocusMode: u16 = 0x500A;
    /// `0x500B`
    pub const ExposureMeteringMode: u16 = 0x500B;
    /// `0x500C`
    pub const FlashMode: u16 = 0x500C;
    /// `0x500D`
    pub const ExposureTime: u16 = 0x500D;
    /// `0x500E`
    pub const ExposureProgramMode: u16 = 0x500E;
    /// `0x500F`
    pub const ExposureIndex: u16 = 0x500F;
    /// `0x5010`
    pub const ExposureBiasCompensation: u16 = 0x5010;
    /// `0x5011`
    pub const DateTime: u16 = 0x5011;
    /// `0x5012`
    pub const CaptureDelay: u16 = 0x5012;
    /// `0x5013`
    pub const StillCaptureMode: u16 = 0x5013;
    /// `0x5014`
    pub const Contrast: u16 = 0x5014;
    /// `0x5015`
    pub const Sharpness: u16 = 0x5015;
    /// `0x5016`
    pub const DigitalZoom: u16 = 0x5016;
    /// `0x5017`
    pub const EffectMode: u16 = 0x5017;
    /// `0x5018`
    pub const BurstNumber: u16 = 0x5018;
    /// `0x5019`
    pub const BurstInterval: u16 = 0x5019;
    /// `0x501A`
    pub const TimelapseNumber: u16 = 0x501A;
    /// `0x501B`
    pub const TimelapseInterval: u16 = 0x501B;
    /// `0x501C`
    pub const FocusMeteringMode: u16 = 0x501C;
    /// `0x501D`
    pub const UploadURL: u16 = 0x501D;
    /// `0x501E`
    pub const Artist: u16 = 0x501E;
    /// `0x501F`
    pub const CopyrightInfo: u16 = 0x501F;

    /// The name of a code; none for one that PIMA does not have.
    pub fn name(code: u16) -> Option<&'static str> {
        Some(match code {
            Undefined => "Undefined",
            BatteryLevel => "BatteryLevel",
            FunctionalMode => "FunctionalMode",
            ImageSize => "ImageSize",
            CompressionSetting => "CompressionSetting",
            WhiteBalance => "WhiteBalance",
            RGBGain => "RGBGain",
            FNumber => "FNumber",
            FocalLength => "FocalLength",
            FocusDistance => "FocusDistance",
            FocusMode => "FocusMode",
            ExposureMeteringMode => "ExposureMeteringMode",
            FlashMode => "FlashMode",
            ExposureTime => "ExposureTime",
            ExposureProgramMode => "ExposureProgramMode",
            ExposureIndex => "ExposureIndex",
            ExposureBiasCompensation => "ExposureBiasCompensation",
            DateTime => "DateTime",
            CaptureDelay => "CaptureDelay",
            StillCaptureMode => "StillCaptureMode",
            Contrast => "Contrast",
            Sharpness => "Sharpness",
            DigitalZoom => "DigitalZoom",
            EffectMode => "EffectMode",
            BurstNumber => "BurstNumber",
            BurstInterval => "BurstInterval",
            TimelapseNumber => "TimelapseNumber",
            TimelapseInterval => "TimelapseInterval",
            FocusMeteringMode => "FocusMeteringMode",
            UploadURL => "UploadURL",
            Artist => "Artist",
            CopyrightInfo => "CopyrightInfo",
            _ => return None,
        })
    }

    /// The unit of a property's value, and by what the value is divided to be in it.
    pub fn unit(code: u16) -> Option<(u32, &'static str)> {
        Some(match code {
            BatteryLevel => (1, "%"),
            FNumber => (100, "f"),
            FocalLength => (100, "mm"),
            FocusDistance => (1, "mm"),
            ExposureTime => (10_000, "s"),
            ExposureBiasCompensation => (1000, "EV"),
            CaptureDelay => (1000, "s"),
            DigitalZoom => (10, "x"),
            BurstInterval => (1000, "s"),
            TimelapseInterval => (1000, "s"),
            _ => return None,
        })
    }
}

/// PIMA 15740: an object's format.
#[allow(non_snake_case, non_upper_case_globals)]
pub mod StandardObjectFormat {
    /// `0x3000`
    pub const Undefined: u16 = 0x3000;
    /// `0x3001`
    pub const Association: u16 = 0x3001;
    /// `0x3002`
    pub const Script: u16 = 0x3002;
    /// `0x3003`
    pub const Executable: u16 = 0x3003;
    /// `0x3004`
    pub const Text: u16 = 0x3004;
    /// `0x3005`
    pub const HTML: u16 = 0x3005;
    /// `0x3006`
    pub const DPOF: u16 = 0x3006;
    /// `0x3007`
    pub const AIFF: u16 = 0x3007;
    /// `0x3008`
    pub const WAV: u16 = 0x3008;
    /// `0x3009`
    pub const MP3: u16 = 0x3009;
    /// `0x300A`
    pub const AVI: u16 = 0x300A;
    /// `0x300B`
    pub const MPEG: u16 = 0x300B;
    /// `0x300C`
    pub const ASF: u16 = 0x300C;
    /// `0x3800`
    pub const UndefinedImage: u16 = 0x3800;
    /// `0x3801`
    pub const EXIF_JPEG: u16 = 0x3801;
    /// `0x3802`
    pub const TIFF_EP: u16 = 0x3802;
    /// `0x3803`
    pub const FlashPix: u16 = 0x3803;
    /// `0x3804`
    pub const BMP: u16 = 0x3804;
    /// `0x3805`
    pub const CIFF: u16 = 0x3805;
    /// `0x3807`
    pub const GIF: u16 = 0x3807;
    /// `0x3808`
    pub const JFIF: u16 = 0x3808;
    /// `0x3809`
    pub const PCD: u16 = 0x3809;
    /// `0x380A`
    pub const PICT: u16 = 0x380A;
    /// `0x380B`
    pub const PNG: u16 = 0x380B;
    /// `0x380D`
    pub const TIFF: u16 = 0x380D;
    /// `0x380E`
    pub const TIFF_IT: u16 = 0x380E;
    /// `0x380F`
    pub const JP2: u16 = 0x380F;
    /// `0x3810`
    pub const JPX: u16 = 0x3810;

    /// The name of a code; none for one that PIMA does not have.
    pub fn name(code: u16) -> Option<&'static str> {
        Some(match code {
            Undefined => "Undefined",
            Association => "Association",
            Script => "Script",
            Executable => "Executable",
            Text => "Text",
            HTML => "HTML",
            DPOF => "DPOF",
            AIFF => "AIFF",
            WAV => "WAV",
            MP3 => "MP3",
            AVI => "AVI",
            MPEG => "MPEG",
            ASF => "ASF",
            UndefinedImage => "UndefinedImage",
            EXIF_JPEG => "EXIF_JPEG",
            TIFF_EP => "TIFF_EP",
            FlashPix => "FlashPix",
            BMP => "BMP",
            CIFF => "CIFF",
            GIF => "GIF",
            JFIF => "JFIF",
            PCD => "PCD",
            PICT => "PICT",
            PNG => "PNG",
            TIFF => "TIFF",
            TIFF_IT => "TIFF_IT",
            JP2 => "JP2",
            JPX => "JPX",
            _ => return None,
        })
    }
}

/// PIMA 15740: a storage's type.
#[allow(non_snake_case, non_upper_case_globals)]
pub mod StandardStorageType {
    /// `0x0000`
    pub const Undefined: u16 = 0x0000;
    /// `0x0001`
    pub const FixedROM: u16 = 0x0001;
    /// `0x0002`
    pub const RemovableROM: u16 = 0x0002;
    /// `0x0003`
    pub const FixedRAM: u16 = 0x0003;
    /// `0x0004`
    pub const RemovableRAM: u16 = 0x0004;

    /// The name of a code; none for one that PIMA does not have.
    pub fn name(code: u16) -> Option<&'static str> {
        Some(match code {
            Undefined => "Undefined",
            FixedROM => "FixedROM",
            RemovableROM => "RemovableROM",
            FixedRAM => "FixedRAM",
            RemovableRAM => "RemovableRAM",
            _ => return None,
        })
    }
}

/// PIMA 15740: a storage's filesystem.
#[allow(non_snake_case, non_upper_case_globals)]
pub mod StandardFilesystemType {
    /// `0x0000`
    pub const Undefined: u16 = 0x0000;
    /// `0x0001`
    pub const GenericFlat: u16 = 0x0001;
    /// `0x0002`
    pub const GenericHierarchical: u16 = 0x0002;
    /// `0x0003`
    pub const DCF: u16 = 0x0003;

    /// The name of a code; none for one that PIMA does not have.
    pub fn name(code: u16) -> Option<&'static str> {
        Some(match code {
            Undefined => "Undefined",
            GenericFlat => "GenericFlat",
            GenericHierarchical => "GenericHierarchical",
            DCF => "DCF",
            _ => return None,
        })
    }
}

/// PIMA 15740: what may be done with a storage.
#[allow(non_snake_case, non_upper_case_globals)]
pub mod StandardAccessCapability {
    /// `0x0000`
    pub const ReadWrite: u16 = 0x0000;
    /// `0x0001`
    pub const ReadOnly: u16 = 0x0001;
    /// `0x0002`
    pub const ReadOnlyWithObjectDeletion: u16 = 0x0002;

    /// The name of a code; none for one that PIMA does not have.
    pub fn name(code: u16) -> Option<&'static str> {
        Some(match code {
            ReadWrite => "ReadWrite",
            ReadOnly => "ReadOnly",
            ReadOnlyWithObjectDeletion => "ReadOnlyWithObjectDeletion",
            _ => return None,
        })
    }
}

/// PIMA 15740: an object's protection.
#[allow(non_snake_case, non_upper_case_globals)]
pub mod StandardProtectionStatus {
    /// `0x0000`
    pub const NoProtection: u16 = 0x0000;
    /// `0x0001`
    pub const ReadOnly: u16 = 0x0001;

    /// The name of a code; none for one that PIMA does not have.
    pub fn name(code: u16) -> Option<&'static str> {
        Some(match code {
            NoProtection => "NoProtection",
            ReadOnly => "ReadOnly",
            _ => return None,
        })
    }
}

/// PIMA 15740: what kind of folder an object is.
#[allow(non_snake_case, non_upper_case_globals)]
pub mod StandardAssociationType {
    /// `0x0000`
    pub const Undefined: u16 = 0x0000;
    /// `0x0001`
    pub const GenericFolder: u16 = 0x0001;
    /// `0x0002`
    pub const Album: u16 = 0x0002;
    /// `0x0003`
    pub const TimeSequence: u16 = 0x0003;
    /// `0x0004`
    pub const HorizontalPanoramic: u16 = 0x0004;
    /// `0x0005`
    pub const VerticalPanoramic: u16 = 0x0005;
    /// `0x0006`
    pub const Panoramic2D: u16 = 0x0006;
    /// `0x0007`
    pub const AncillaryData: u16 = 0x0007;

    /// The name of a code; none for one that PIMA does not have.
    pub fn name(code: u16) -> Option<&'static str> {
        Some(match code {
            Undefined => "Undefined",
            GenericFolder => "GenericFolder",
            Album => "Album",
            TimeSequence => "TimeSequence",
            HorizontalPanoramic => "HorizontalPanoramic",
            VerticalPanoramic => "VerticalPanoramic",
            Panoramic2D => "Panoramic2D",
            AncillaryData => "AncillaryData",
            _ => return None,
        })
    }
}
