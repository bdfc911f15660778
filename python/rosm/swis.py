"""Names of SWIs of RISC OS 3, by chunk (Programmer's Reference Manual, "List of SWIs").

A number that stands among the names says where the next name is. X before a name sets bit 17.
"""

from __future__ import annotations

import difflib

X_BIT = 0x20000

_KERNEL = """
WriteC WriteS Write0 NewLine ReadC CLI Byte Word File Args BGet BPut GBPB Find ReadLine Control
GetEnv Exit SetEnv IntOn IntOff CallBack EnterOS BreakPt BreakCtrl UnusedSWI UpdateMEMC SetCallBack
Mouse Heap Module Claim Release ReadUnsigned GenerateEvent ReadVarVal SetVarVal GSInit GSRead GSTrans
BinaryToDecimal FSControl ChangeDynamicArea GenerateError ReadEscapeState EvaluateExpression SpriteOp
ReadPalette ServiceCall ReadVduVariables ReadPoint UpCall CallAVector ReadModeVariable RemoveCursors
RestoreCursors SWINumberToString SWINumberFromString ValidateAddress CallAfter CallEvery
RemoveTickerEvent InstallKeyHandler CheckModeValid ChangeEnvironment ClaimScreenMemory
ReadMonotonicTime SubstituteArgs PrettyPrint Plot WriteN AddToVector WriteEnv ReadArgs
ReadRAMFsLimits ClaimDeviceVector ReleaseDeviceVector DelinkApplication RelinkApplication HeapSort
ExitAndDie ReadMemMapInfo ReadMemMapEntries SetMemMapEntries AddCallBack ReadDefaultHandler
SetECFOrigin SerialOp ReadSysInfo Confirm ChangedBox CRC ReadDynamicArea PrintChar ChangeRedirection
RemoveCallBack FindMemMapEntries SetColour 100 Pointer ScreenMode DynamicArea 104 Memory
ClaimProcessorVector Reset MMUControl
192 ConvertStandardDateAndTime ConvertDateAndTime
208 ConvertHex1 ConvertHex2 ConvertHex4 ConvertHex6 ConvertHex8
213 ConvertCardinal1 ConvertCardinal2 ConvertCardinal3 ConvertCardinal4
217 ConvertInteger1 ConvertInteger2 ConvertInteger3 ConvertInteger4
221 ConvertBinary1 ConvertBinary2 ConvertBinary3 ConvertBinary4
225 ConvertSpacedCardinal1 ConvertSpacedCardinal2 ConvertSpacedCardinal3 ConvertSpacedCardinal4
229 ConvertSpacedInteger1 ConvertSpacedInteger2 ConvertSpacedInteger3 ConvertSpacedInteger4
ConvertFixedNetStation ConvertNetStation ConvertFixedFileSize ConvertFileSize
256 WriteI
"""

_CHUNKS = [
    (0x00000, "OS", _KERNEL),
    (0x40000, "Econet", """CreateReceive ExamineReceive ReadReceive AbandonReceive WaitForReception
     EnumerateReceive StartTransmit PollTransmit AbandonTransmit DoTransmit ReadLocalStationAndNet
     ConvertStatusToString ConvertStatusToError ReadProtection SetProtection ReadStationNumber
     PrintBanner ReadTransportType ReleasePort AllocatePort DeAllocatePort ClaimPort StartImmediate
     DoImmediate"""),
    (0x40040, "NetFS", """ReadFSNumber SetFSNumber ReadFSName SetFSName ReadCurrentContext
     SetCurrentContext ReadFSTimeouts SetFSTimeouts DoFSOp EnumerateFSList EnumerateFS ConvertDate
     DoFSOpToGivenFS UpdateFSList EnumerateFSContexts ReadUserId GetObjectUID EnableCache"""),
    (0x40080, "Font", """CacheAddr FindFont LoseFont ReadDefn ReadInfo StringWidth Paint Caret
     ConverttoOS Converttopoints SetFont CurrentFont FutureFont FindCaret CharBBox ReadScaleFactor
     SetScaleFactor ListFonts SetFontColours SetPalette ReadThresholds SetThresholds FindCaretJ
     StringBBox ReadColourTable MakeBitmap UnCacheFile SetFontMax ReadFontMax ReadFontPrefix
     SwitchOutputToBuffer ReadFontMetrics DecodeMenu ScanString SetColourTable CurrentRGB FutureRGB
     ReadEncodingFilename FindField ApplyFields LookupFont"""),
    (0x400C0, "Wimp", """Initialise CreateWindow CreateIcon DeleteWindow DeleteIcon OpenWindow
     CloseWindow Poll RedrawWindow UpdateWindow GetRectangle GetWindowState GetWindowInfo SetIconState
     GetIconState GetPointerInfo DragBox ForceRedraw SetCaretPosition GetCaretPosition CreateMenu
     DecodeMenu WhichIcon SetExtent SetPointerShape OpenTemplate CloseTemplate LoadTemplate
     ProcessKey CloseDown StartTask ReportError GetWindowOutline PollIdle PlotIcon SetMode SetPalette
     ReadPalette SetColour SendMessage CreateSubMenu SpriteOp BaseOfSprites BlockCopy SlotSize
     ReadPixTrans ClaimFreeMemory CommandWindow TextColour TransferBlock ReadSysInfo SetFontColours
     GetMenuState RegisterFilter AddMessages RemoveMessages SetColourMapping"""),
    (0x40140, "Sound", "Configure Enable Stereo Speaker"),
    (0x40180, "Sound", """Volume SoundLog LogScale InstallVoice RemoveVoice AttachVoice ControlPacked
     Tuning Pitch Control AttachNamedVoice ReadControlBlock WriteControlBlock"""),
    (0x401C0, "Sound", "QInit QSchedule QRemove QFree QSDispatch QTempo QBeat QInterface"),
    (0x40200, "NetPrint", """ReadPSNumber SetPSNumber ReadPSName SetPSName ReadPSTimeouts
     SetPSTimeouts BindPSName ListServers ConvertStatusToString"""),
    (0x40240, "ADFS", """DiscOp HDC Drives FreeSpace Retries DescribeDisc VetFormat FlpProcessDCB
     ControllerType PowerControl SetIDEController IDEUserOp MiscOp SectorDiscOp 16 ECCSAndRetries"""),
    (0x40280, "Podule", """ReadID ReadHeader EnumerateChunks ReadChunk ReadBytes WriteBytes CallLoader
     RawRead RawWrite HardwareAddress EnumerateChunksWithInfo HardwareAddresses ReturnNumber"""),
    (0x40380, "Debugger", "Disassemble"),
    (0x403C0, "SCSI", "Version Initialise Control Op Status"),
    (0x40480, "FPEmulator", "Version"),
    (0x40540, "FileCore", """DiscOp Create Drives FreeSpace FloppyStructure DescribeDisc
     DiscardReadSectorsCache DiscFormat LayoutStructure MiscOp SectorOp"""),
    (0x405C0, "Shell", "Create Destroy"),
    (0x406C0, "Hourglass", "On Off Smash Start Percentage LEDs"),
    (0x40700, "Draw", """ProcessPath ProcessPathFP Fill FillFP Stroke StrokeFP StrokePath
     StrokePathFP FlattenPath FlattenPathFP TransformPath TransformPathFP"""),
    (0x40740, "ColourTrans", """SelectTable SelectGCOLTable ReturnGCOL SetGCOL ReturnColourNumber
     ReturnGCOLForMode ReturnColourNumberForMode ReturnOppGCOL SetOppGCOL ReturnOppColourNumber
     ReturnOppGCOLForMode ReturnOppColourNumberForMode GCOLToColourNumber ColourNumberToGCOL
     ReturnFontColours SetFontColours InvalidateCache SetCalibration ReadCalibration
     ConvertDeviceColour ConvertDevicePalette ConvertRGBToCIE ConvertCIEToRGB WriteCalibrationToFile
     ConvertRGBToHSV ConvertHSVToRGB ConvertRGBToCMYK ConvertCMYKToRGB ReadPalette WritePalette
     SetColour MiscOp WriteLoadingsToFile SetTextColour SetOppTextColour GenerateTable"""),
    (0x40780, "RamFS", "DiscOp 2 Drives FreeSpace 5 DescribeDisc"),
    (0x41500, "MessageTrans", """FileInfo OpenFile Lookup MakeMenus CloseFile EnumerateTokens
     ErrorLookup GSLookup CopyError Dictionary"""),
    (0x41B40, "ResourceFS", "RegisterFiles DeregisterFiles"),
    (0x42400, "DragASprite", "Start Stop"),
    (0x42580, "DDEUtils", """Prefix SetCLSize SetCL GetCLSize GetCl ThrowbackRegister
     ThrowbackUnRegister ThrowbackStart ThrowbackSend ThrowbackEnd"""),
    (0x42640, "Filter", """RegisterPreFilter RegisterPostFilter DeRegisterPreFilter
     DeRegisterPostFilter"""),
    (0x42680, "TaskManager", "TaskNameFromHandle EnumerateTasks Shutdown"),
    (0x42700, "Squash", "Compress Decompress"),
    (0x42740, "DeviceFS", """Register Deregister RegisterObjects DeregisterObjects CallDevice Threshold
     ReceivedCharacter TransmitCharacter"""),
    (0x42940, "Buffer", """Create Remove Register Deregister ModifyFlags LinkDevice UnlinkDevice GetInfo
     Threshold InternalInfo"""),
    (0x42C80, "BASICTrans", "HELP Error Message"),
    (0x42EC0, "Parallel", "HardwareAddress Op"),
    (0x43040, "Territory", """Number Register Deregister NumberToName Exists AlphabetNumberToName
     SelectAlphabet SetTime ReadCurrentTimeZone ConvertTimeToUTCOrdinals ReadTimeZones
     ConvertDateAndTime ConvertStandardDateAndTime ConvertStandardDate ConvertStandardTime
     ConvertTimeToOrdinals ConvertTimeStringToOrdinals ConvertOrdinalsToTime Alphabet
     AlphabetIdentifier SelectKeyboardHandler WriteDirection CharacterPropertyTable LowerCaseTable
     UpperCaseTable ControlTable PlainTable ValueTable RepresentationTable Collate ReadSymbols
     ReadCalendarInformation NameToNumber TransformString"""),
    (0x43380, "TaskWindow", "TaskInfo"),
    (0x43F40, "Joystick", "Read"),
    (0x80140, "PDriver", """Info SetInfo CheckFeatures PageSize SetPageSize SelectJob CurrentJob FontSWI
     EndJob AbortJob Reset GiveRectangle DrawPage GetRectangle CancelJob ScreenDump EnumerateJobs
     SetPrinter CancelJobWithError SelectIllustration InsertIllustration DeclareFont DeclareDriver
     RemoveDriver SelectDriver EnumerateDrivers MiscOp MiscOpForDriver SetDriver"""),
    (0x80680, "SharedCLibrary", "LibInitAPCS_A LibInitAPCS_R LibInitModule"),
    (0xC0000, "Flex", "Init Alloc Free Size Extend MidExtend"),  # the machine's own
]


def table() -> dict[str, int]:
    """All names with their numbers."""
    names: dict[str, int] = {}
    for base, front, words in _CHUNKS:
        number = base
        for word in words.split():
            if word.isdigit():
                number = base + int(word)
                continue
            assert f"{front}_{word}" not in names, f"{front}_{word} stands twice"
            names[f"{front}_{word}"] = number
            number += 1
    return names


NUMBERS = table()
NAMES = {number: name for name, number in NUMBERS.items()}


def swi_number(name: str) -> int | None:
    """The number of a SWI's name, with X before it or without; capitals count. None: not known."""
    if name in NUMBERS:
        return NUMBERS[name]
    if name.startswith("X") and name[1:] in NUMBERS:
        return NUMBERS[name[1:]] | X_BIT
    return None


def near_swi(name: str) -> str:
    """A name of the table that this one likely means, as a text for a message, or nothing."""
    plain = name.lower()
    for front in ("", "x"):
        for known in NUMBERS:
            if front + known.lower() == plain:
                return f"; there is {front.upper()}{known}, and capitals count"
    near = difflib.get_close_matches(name, NUMBERS, 1, 0.8)
    return f"; there is {near[0]}" if near else ""


def swi_name(number: int) -> str | None:
    """The name of a SWI's number, or None."""
    if 0x100 <= number & ~X_BIT < 0x200:
        name: str | None = "OS_WriteI"
    else:
        name = NAMES.get(number & ~X_BIT)
    return None if name is None else ("X" if number & X_BIT else "") + name
