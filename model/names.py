"""The two tables of names, as the crate spells them ("Names": 33 responses, 29 commands)."""

FIRST_RESPONSE = 0x2000
RESPONSES = """
Undefined Ok GeneralError SessionNotOpen InvalidTransactionId OperationNotSupported ParameterNotSupported
IncompleteTransfer InvalidStorageId InvalidObjectHandle DevicePropNotSupported InvalidObjectFormatCode StoreFull
ObjectWriteProtected StoreReadOnly AccessDenied NoThumbnailPresent SelfTestFailed PartialDeletion StoreNotAvailable
SpecificationByFormatUnsupported NoValidObjectInfo InvalidCodeFormat UnknownVendorCode CaptureAlreadyTerminated
DeviceBusy InvalidParentObject InvalidDevicePropFormat InvalidDevicePropValue InvalidParameter SessionAlreadyOpen
TransactionCancelled SpecificationOfDestinationUnsupported
""".split()

FIRST_COMMAND = 0x1000
COMMANDS = """
Undefined GetDeviceInfo OpenSession CloseSession GetStorageIDs GetStorageInfo GetNumObjects GetObjectHandles
GetObjectInfo GetObject GetThumb DeleteObject SendObjectInfo SendObject InitiateCapture FormatStore ResetDevice SelfTest
SetObjectProtection PowerDown GetDevicePropDesc GetDevicePropValue SetDevicePropValue ResetDevicePropValue
TerminateOpenCapture MoveObject CopyObject GetPartialObject InitiateOpenCapture
""".split()


def _look_up(names, first, code):
    place = code - first
    return names[place] if 0 <= place < len(names) else None


def response_name(code):
    """The name, or None: "Any other code has no name, which is an ordinary answer"."""
    return _look_up(RESPONSES, FIRST_RESPONSE, code)


def command_name(code):
    return _look_up(COMMANDS, FIRST_COMMAND, code)


def command_code(name):
    return FIRST_COMMAND + COMMANDS.index(name)
