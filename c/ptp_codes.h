/* PIMA 15740's codes by name, but for commands and responses, which ptp.h has. Written by tools/codes.py from
 * python/ptp_proved/codes.tsv, which has the sources.
 * Each function gives the name of a code, or NULL for one that PIMA does not have. Plain C. */
#ifndef PTP_CODES_H
#define PTP_CODES_H

#include <stddef.h>
#include <stdint.h>

/* PIMA 15740: an event's code. */
enum ptp_event {
    PTP_EVENT_UNDEFINED = 0x4000,
    PTP_EVENT_CANCEL_TRANSACTION = 0x4001,
    PTP_EVENT_OBJECT_ADDED = 0x4002,
    PTP_EVENT_OBJECT_REMOVED = 0x4003,
    PTP_EVENT_STORE_ADDED = 0x4004,
    PTP_EVENT_STORE_REMOVED = 0x4005,
    PTP_EVENT_DEVICE_PROP_CHANGED = 0x4006,
    PTP_EVENT_OBJECT_INFO_CHANGED = 0x4007,
    PTP_EVENT_DEVICE_INFO_CHANGED = 0x4008,
    PTP_EVENT_REQUEST_OBJECT_TRANSFER = 0x4009,
    PTP_EVENT_STORE_FULL = 0x400A,
    PTP_EVENT_DEVICE_RESET = 0x400B,
    PTP_EVENT_STORAGE_INFO_CHANGED = 0x400C,
    PTP_EVENT_CAPTURE_COMPLETE = 0x400D,
    PTP_EVENT_UNREPORTED_STATUS = 0x400E
};

static inline const char *ptp_event_name(uint16_t code)
{
    switch (code) {
    case PTP_EVENT_UNDEFINED: return "Undefined";
    case PTP_EVENT_CANCEL_TRANSACTION: return "CancelTransaction";
    case PTP_EVENT_OBJECT_ADDED: return "ObjectAdded";
    case PTP_EVENT_OBJECT_REMOVED: return "ObjectRemoved";
    case PTP_EVENT_STORE_ADDED: return "StoreAdded";
    case PTP_EVENT_STORE_REMOVED: return "StoreRemoved";
    case PTP_EVENT_DEVICE_PROP_CHANGED: return "DevicePropChanged";
    case PTP_EVENT_OBJECT_INFO_CHANGED: return "ObjectInfoChanged";
    case PTP_EVENT_DEVICE_INFO_CHANGED: return "DeviceInfoChanged";
    case PTP_EVENT_REQUEST_OBJECT_TRANSFER: return "RequestObjectTransfer";
    case PTP_EVENT_STORE_FULL: return "StoreFull";
    case PTP_EVENT_DEVICE_RESET: return "DeviceReset";
    case PTP_EVENT_STORAGE_INFO_CHANGED: return "StorageInfoChanged";
    case PTP_EVENT_CAPTURE_COMPLETE: return "CaptureComplete";
    case PTP_EVENT_UNREPORTED_STATUS: return "UnreportedStatus";
    default: return NULL;
    }
}

/* PIMA 15740: a property's code. */
enum ptp_property {
    PTP_PROPERTY_UNDEFINED = 0x5000,
    PTP_PROPERTY_BATTERY_LEVEL = 0x5001,
    PTP_PROPERTY_FUNCTIONAL_MODE = 0x5002,
    PTP_PROPERTY_IMAGE_SIZE = 0x5003,
    PTP_PROPERTY_COMPRESSION_SETTING = 0x5004,
    PTP_PROPERTY_WHITE_BALANCE = 0x5005,
    PTP_PROPERTY_RGB_GAIN = 0x5006,
    PTP_PROPERTY_F_NUMBER = 0x5007,
    PTP_PROPERTY_FOCAL_LENGTH = 0x5008,
    PTP_PROPERTY_FOCUS_DISTANCE = 0x5009,
    PTP_PROPERTY_FOCUS_MODE = 0x500A,
    PTP_PROPERTY_EXPOSURE_METERING_MODE = 0x500B,
    PTP_PROPERTY_FLASH_MODE = 0x500C,
    PTP_PROPERTY_EXPOSURE_TIME = 0x500D,
    PTP_PROPERTY_EXPOSURE_PROGRAM_MODE = 0x500E,
    PTP_PROPERTY_EXPOSURE_INDEX = 0x500F,
    PTP_PROPERTY_EXPOSURE_BIAS_COMPENSATION = 0x5010,
    PTP_PROPERTY_DATE_TIME = 0x5011,
    PTP_PROPERTY_CAPTURE_DELAY = 0x5012,
    PTP_PROPERTY_STILL_CAPTURE_MODE = 0x5013,
    PTP_PROPERTY_CONTRAST = 0x5014,
    PTP_PROPERTY_SHARPNESS = 0x5015,
    PTP_PROPERTY_DIGITAL_ZOOM = 0x5016,
    PTP_PROPERTY_EFFECT_MODE = 0x5017,
    PTP_PROPERTY_BURST_NUMBER = 0x5018,
    PTP_PROPERTY_BURST_INTERVAL = 0x5019,
    PTP_PROPERTY_TIMELAPSE_NUMBER = 0x501A,
    PTP_PROPERTY_TIMELAPSE_INTERVAL = 0x501B,
    PTP_PROPERTY_FOCUS_METERING_MODE = 0x501C,
    PTP_PROPERTY_UPLOAD_URL = 0x501D,
    PTP_PROPERTY_ARTIST = 0x501E,
    PTP_PROPERTY_COPYRIGHT_INFO = 0x501F
};

static inline const char *ptp_property_name(uint16_t code)
{
    switch (code) {
    case PTP_PROPERTY_UNDEFINED: return "Undefined";
    case PTP_PROPERTY_BATTERY_LEVEL: return "BatteryLevel";
    case PTP_PROPERTY_FUNCTIONAL_MODE: return "FunctionalMode";
    case PTP_PROPERTY_IMAGE_SIZE: return "ImageSize";
    case PTP_PROPERTY_COMPRESSION_SETTING: return "CompressionSetting";
    case PTP_PROPERTY_WHITE_BALANCE: return "WhiteBalance";
    case PTP_PROPERTY_RGB_GAIN: return "RGBGain";
    case PTP_PROPERTY_F_NUMBER: return "FNumber";
    case PTP_PROPERTY_FOCAL_LENGTH: return "FocalLength";
    case PTP_PROPERTY_FOCUS_DISTANCE: return "FocusDistance";
    case PTP_PROPERTY_FOCUS_MODE: return "FocusMode";
    case PTP_PROPERTY_EXPOSURE_METERING_MODE: return "ExposureMeteringMode";
    case PTP_PROPERTY_FLASH_MODE: return "FlashMode";
    case PTP_PROPERTY_EXPOSURE_TIME: return "ExposureTime";
    case PTP_PROPERTY_EXPOSURE_PROGRAM_MODE: return "ExposureProgramMode";
    case PTP_PROPERTY_EXPOSURE_INDEX: return "ExposureIndex";
    case PTP_PROPERTY_EXPOSURE_BIAS_COMPENSATION: return "ExposureBiasCompensation";
    case PTP_PROPERTY_DATE_TIME: return "DateTime";
    case PTP_PROPERTY_CAPTURE_DELAY: return "CaptureDelay";
    case PTP_PROPERTY_STILL_CAPTURE_MODE: return "StillCaptureMode";
    case PTP_PROPERTY_CONTRAST: return "Contrast";
    case PTP_PROPERTY_SHARPNESS: return "Sharpness";
    case PTP_PROPERTY_DIGITAL_ZOOM: return "DigitalZoom";
    case PTP_PROPERTY_EFFECT_MODE: return "EffectMode";
    case PTP_PROPERTY_BURST_NUMBER: return "BurstNumber";
    case PTP_PROPERTY_BURST_INTERVAL: return "BurstInterval";
    case PTP_PROPERTY_TIMELAPSE_NUMBER: return "TimelapseNumber";
    case PTP_PROPERTY_TIMELAPSE_INTERVAL: return "TimelapseInterval";
    case PTP_PROPERTY_FOCUS_METERING_MODE: return "FocusMeteringMode";
    case PTP_PROPERTY_UPLOAD_URL: return "UploadURL";
    case PTP_PROPERTY_ARTIST: return "Artist";
    case PTP_PROPERTY_COPYRIGHT_INFO: return "CopyrightInfo";
    default: return NULL;
    }
}

/* PIMA 15740: an object's format. */
enum ptp_format {
    PTP_FORMAT_UNDEFINED = 0x3000,
    PTP_FORMAT_ASSOCIATION = 0x3001,
    PTP_FORMAT_SCRIPT = 0x3002,
    PTP_FORMAT_EXECUTABLE = 0x3003,
    PTP_FORMAT_TEXT = 0x3004,
    PTP_FORMAT_HTML = 0x3005,
    PTP_FORMAT_DPOF = 0x3006,
    PTP_FORMAT_AIFF = 0x3007,
    PTP_FORMAT_WAV = 0x3008,
    PTP_FORMAT_MP3 = 0x3009,
    PTP_FORMAT_AVI = 0x300A,
    PTP_FORMAT_MPEG = 0x300B,
    PTP_FORMAT_ASF = 0x300C,
    PTP_FORMAT_UNDEFINED_IMAGE = 0x3800,
    PTP_FORMAT_EXIF_JPEG = 0x3801,
    PTP_FORMAT_TIFF_EP = 0x3802,
    PTP_FORMAT_FLASH_PIX = 0x3803,
    PTP_FORMAT_BMP = 0x3804,
    PTP_FORMAT_CIFF = 0x3805,
    PTP_FORMAT_GIF = 0x3807,
    PTP_FORMAT_JFIF = 0x3808,
    PTP_FORMAT_PCD = 0x3809,
    PTP_FORMAT_PICT = 0x380A,
    PTP_FORMAT_PNG = 0x380B,
    PTP_FORMAT_TIFF = 0x380D,
    PTP_FORMAT_TIFF_IT = 0x380E,
    PTP_FORMAT_JP2 = 0x380F,
    PTP_FORMAT_JPX = 0x3810
};

static inline const char *ptp_format_name(uint16_t code)
{
    switch (code) {
    case PTP_FORMAT_UNDEFINED: return "Undefined";
    case PTP_FORMAT_ASSOCIATION: return "Association";
    case PTP_FORMAT_SCRIPT: return "Script";
    case PTP_FORMAT_EXECUTABLE: return "Executable";
    case PTP_FORMAT_TEXT: return "Text";
    case PTP_FORMAT_HTML: return "HTML";
    case PTP_FORMAT_DPOF: return "DPOF";
    case PTP_FORMAT_AIFF: return "AIFF";
    case PTP_FORMAT_WAV: return "WAV";
    case PTP_FORMAT_MP3: return "MP3";
    case PTP_FORMAT_AVI: return "AVI";
    case PTP_FORMAT_MPEG: return "MPEG";
    case PTP_FORMAT_ASF: return "ASF";
    case PTP_FORMAT_UNDEFINED_IMAGE: return "UndefinedImage";
    case PTP_FORMAT_EXIF_JPEG: return "EXIF_JPEG";
    case PTP_FORMAT_TIFF_EP: return "TIFF_EP";
    case PTP_FORMAT_FLASH_PIX: return "FlashPix";
    case PTP_FORMAT_BMP: return "BMP";
    case PTP_FORMAT_CIFF: return "CIFF";
    case PTP_FORMAT_GIF: return "GIF";
    case PTP_FORMAT_JFIF: return "JFIF";
    case PTP_FORMAT_PCD: return "PCD";
    case PTP_FORMAT_PICT: return "PICT";
    case PTP_FORMAT_PNG: return "PNG";
    case PTP_FORMAT_TIFF: return "TIFF";
    case PTP_FORMAT_TIFF_IT: return "TIFF_IT";
    case PTP_FORMAT_JP2: return "JP2";
    case PTP_FORMAT_JPX: return "JPX";
    default: return NULL;
    }
}

/* PIMA 15740: a storage's type. */
enum ptp_storage_type {
    PTP_STORAGE_TYPE_UNDEFINED = 0x0000,
    PTP_STORAGE_TYPE_FIXED_ROM = 0x0001,
    PTP_STORAGE_TYPE_REMOVABLE_ROM = 0x0002,
    PTP_STORAGE_TYPE_FIXED_RAM = 0x0003,
    PTP_STORAGE_TYPE_REMOVABLE_RAM = 0x0004
};

static inline const char *ptp_storage_type_name(uint16_t code)
{
    switch (code) {
    case PTP_STORAGE_TYPE_UNDEFINED: return "Undefined";
    case PTP_STORAGE_TYPE_FIXED_ROM: return "FixedROM";
    case PTP_STORAGE_TYPE_REMOVABLE_ROM: return "RemovableROM";
    case PTP_STORAGE_TYPE_FIXED_RAM: return "FixedRAM";
    case PTP_STORAGE_TYPE_REMOVABLE_RAM: return "RemovableRAM";
    default: return NULL;
    }
}

/* PIMA 15740: a storage's filesystem. */
enum ptp_filesystem {
    PTP_FILESYSTEM_UNDEFINED = 0x0000,
    PTP_FILESYSTEM_GENERIC_FLAT = 0x0001,
    PTP_FILESYSTEM_GENERIC_HIERARCHICAL = 0x0002,
    PTP_FILESYSTEM_DCF = 0x0003
};

static inline const char *ptp_filesystem_name(uint16_t code)
{
    switch (code) {
    case PTP_FILESYSTEM_UNDEFINED: return "Undefined";
    case PTP_FILESYSTEM_GENERIC_FLAT: return "GenericFlat";
    case PTP_FILESYSTEM_GENERIC_HIERARCHICAL: return "GenericHierarchical";
    case PTP_FILESYSTEM_DCF: return "DCF";
    default: return NULL;
    }
}

/* PIMA 15740: what may be done with a storage. */
enum ptp_access {
    PTP_ACCESS_READ_WRITE = 0x0000,
    PTP_ACCESS_READ_ONLY = 0x0001,
    PTP_ACCESS_READ_ONLY_WITH_OBJECT_DELETION = 0x0002
};

static inline const char *ptp_access_name(uint16_t code)
{
    switch (code) {
    case PTP_ACCESS_READ_WRITE: return "ReadWrite";
    case PTP_ACCESS_READ_ONLY: return "ReadOnly";
    case PTP_ACCESS_READ_ONLY_WITH_OBJECT_DELETION: return "ReadOnlyWithObjectDeletion";
    default: return NULL;
    }
}

/* PIMA 15740: an object's protection. */
enum ptp_protection {
    PTP_PROTECTION_NO_PROTECTION = 0x0000,
    PTP_PROTECTION_READ_ONLY = 0x0001
};

static inline const char *ptp_protection_name(uint16_t code)
{
    switch (code) {
    case PTP_PROTECTION_NO_PROTECTION: return "NoProtection";
    case PTP_PROTECTION_READ_ONLY: return "ReadOnly";
    default: return NULL;
    }
}

/* PIMA 15740: what kind of folder an object is. */
enum ptp_association {
    PTP_ASSOCIATION_UNDEFINED = 0x0000,
    PTP_ASSOCIATION_GENERIC_FOLDER = 0x0001,
    PTP_ASSOCIATION_ALBUM = 0x0002,
    PTP_ASSOCIATION_TIME_SEQUENCE = 0x0003,
    PTP_ASSOCIATION_HORIZONTAL_PANORAMIC = 0x0004,
    PTP_ASSOCIATION_VERTICAL_PANORAMIC = 0x0005,
    PTP_ASSOCIATION_PANORAMIC_2D = 0x0006,
    PTP_ASSOCIATION_ANCILLARY_DATA = 0x0007
};

static inline const char *ptp_association_name(uint16_t code)
{
    switch (code) {
    case PTP_ASSOCIATION_UNDEFINED: return "Undefined";
    case PTP_ASSOCIATION_GENERIC_FOLDER: return "GenericFolder";
    case PTP_ASSOCIATION_ALBUM: return "Album";
    case PTP_ASSOCIATION_TIME_SEQUENCE: return "TimeSequence";
    case PTP_ASSOCIATION_HORIZONTAL_PANORAMIC: return "HorizontalPanoramic";
    case PTP_ASSOCIATION_VERTICAL_PANORAMIC: return "VerticalPanoramic";
    case PTP_ASSOCIATION_PANORAMIC_2D: return "Panoramic2D";
    case PTP_ASSOCIATION_ANCILLARY_DATA: return "AncillaryData";
    default: return NULL;
    }
}

#endif
