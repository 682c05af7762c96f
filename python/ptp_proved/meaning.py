"""What the parameters of commands, responses and events mean, which reader a command's data has, and which codes a field holds. By PIMA 15740.

A parameter or a field is a name and how its number is shown (spoken.py)."""

from __future__ import annotations

from typing import Dict, Tuple

Meanings = Tuple[Tuple[str, str], ...]

STORE = ("StorageID", "store")
OBJECT = ("ObjectHandle", "id")
PARENT = ("ParentObject", "folder")
FORMAT = ("ObjectFormat", "any-format")
PROPERTY = (("DevicePropCode", "property"),)
IN_FOLDER = (STORE, FORMAT, PARENT)

COMMAND_PARAMETERS: Dict[str, Meanings] = {
    "OpenSession": (("SessionID", "number"),),
    "GetStorageInfo": (STORE,),
    "GetNumObjects": IN_FOLDER,
    "GetObjectHandles": IN_FOLDER,
    "GetObjectInfo": (OBJECT,),
    "GetObject": (OBJECT,),
    "GetThumb": (OBJECT,),
    "DeleteObject": (OBJECT, FORMAT),
    "SendObjectInfo": (STORE, PARENT),
    "InitiateCapture": (STORE, FORMAT),
    "FormatStore": (STORE, ("FilesystemFormat", "filesystem")),
    "SelfTest": (("SelfTestType", "number"),),
    "SetObjectProtection": (OBJECT, ("ProtectionStatus", "protection")),
    "GetDevicePropDesc": PROPERTY,
    "GetDevicePropValue": PROPERTY,
    "SetDevicePropValue": PROPERTY,
    "ResetDevicePropValue": PROPERTY,
    "TerminateOpenCapture": (("TransactionID", "number"),),
    "MoveObject": (OBJECT, STORE, PARENT),
    "CopyObject": (OBJECT, STORE, PARENT),
    "GetPartialObject": (OBJECT, ("Offset", "number"), ("MaxBytes", "number")),
    "InitiateOpenCapture": (STORE, FORMAT),
}
RESPONSE_PARAMETERS: Dict[str, Meanings] = {
    "GetNumObjects": (("NumObjects", "number"),),
    "SendObjectInfo": (STORE, PARENT, OBJECT),
    "CopyObject": (OBJECT,),
    "GetPartialObject": (("SentBytes", "number"),),
}
EVENT_PARAMETERS: Dict[str, Meanings] = {
    "ObjectAdded": (OBJECT,),
    "ObjectRemoved": (OBJECT,),
    "StoreAdded": (STORE,),
    "StoreRemoved": (STORE,),
    "DevicePropChanged": PROPERTY,
    "ObjectInfoChanged": (OBJECT,),
    "RequestObjectTransfer": (OBJECT,),
    "StoreFull": (STORE,),
    "StorageInfoChanged": (STORE,),
    "CaptureComplete": (("TransactionID", "number"),),
}

# Which reader a command's data has; data of any other command is bytes.
READINGS = {
    "GetDeviceInfo": "device",
    "GetStorageIDs": "storage-ids",
    "GetStorageInfo": "storage",
    "GetNumObjects": "count",
    "GetObjectHandles": "handles",
    "GetObjectInfo": "object",
    "SendObjectInfo": "object",
    "GetDevicePropDesc": "property",
    "GetDevicePropValue": "value",
    "SetDevicePropValue": "value",
}

# How the numbers of a record's fields are shown; those that are not here are numbers.
FIELDS = {
    "OperationsSupported": "command", "EventsSupported": "event", "DevicePropertiesSupported": "property", "CaptureFormats": "format",
    "ImageFormats": "format", "StorageID": "store", "ObjectFormat": "format", "ProtectionStatus": "protection", "ThumbFormat": "format",
    "ParentObject": "id", "AssociationType": "association", "StorageType": "storage", "FilesystemType": "filesystem",
    "AccessCapability": "access", "ObjectHandles": "id", "StorageIDs": "id", "PropertyCode": "property", "DataType": "type",
    "GetSet": "get-set", "IsEnable": "number", "Form": "form",
}
