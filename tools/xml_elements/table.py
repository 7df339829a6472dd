"""Which elements and tasks there are, and what they have (docs/FORMATS.md)."""

from __future__ import annotations

from dataclasses import dataclass, field

NAME = r"[A-Za-z_](?:[A-Za-z0-9_]|-(?!>))*"
TARGET_NAME = r"[A-Za-z_][A-Za-z0-9_.:-]*"


@dataclass(frozen=True)
class Kind:
    """A kind of element: its attributes, and the kinds of its children, by name and of others."""

    attributes: frozenset[str] = frozenset()
    required: tuple[str, ...] = ()
    children: dict[str, str] = field(default_factory=dict)
    others: str = ""
    has_text: bool = False
    free: str = ""  # what an attribute of another name is: metadata or a parameter
    is_ignored: bool = False


def kind(attributes: str = "", children: str = "", required: str = "", **rest: object) -> Kind:
    named = frozenset((attributes + " " + required + " Label").split())
    return Kind(named, tuple(required.split()), {name: name for name in children.split()}, **rest)


IN_WHEN = "PropertyGroup ItemGroup ItemDefinitionGroup Choose"
KINDS = {
    "Project": kind(
        "DefaultTargets InitialTargets TreatAsLocalProperty ToolsVersion xmlns",
        IN_WHEN + " Import ImportGroup UsingTask Target ProjectExtensions",
    ),
    "ProjectExtensions": kind(is_ignored=True),
    "PropertyGroup": kind("Condition", others="property"),
    "property": kind("Condition", has_text=True),
    "ItemGroup": kind("Condition", others="item"),
    "item": kind("Include Exclude Remove Update Condition", others="metadata", free="metadata"),
    "ItemDefinitionGroup": kind("Condition", others="definition"),
    "metadata": kind("Condition", has_text=True),
    "definition": kind("Condition", others="default", free="metadata"),
    "default": kind("Condition", has_text=True),
    "Import": kind("Condition", required="Project"),
    "ImportGroup": kind("Condition", "Import"),
    "Choose": kind("", "When Otherwise"),
    "When": kind("", IN_WHEN, required="Condition"),
    "Otherwise": kind("", IN_WHEN),
    "UsingTask": kind(is_ignored=True),
    "Target": kind(
        "Condition DependsOnTargets BeforeTargets AfterTargets Inputs Outputs Returns"
        " KeepDuplicateOutputs",
        "PropertyGroup ItemGroup OnError",
        required="Name",
        others="task",
    ),
    "task": kind(
        "Condition ContinueOnError MSBuildArchitecture MSBuildRuntime",
        "Output",
        free="parameter",
    ),
    "Output": kind("ItemName PropertyName Condition", required="TaskParameter"),
    "OnError": kind("Condition", required="ExecuteTargets"),
}
# attributes of an item in a target alone
IN_TARGET = frozenset(("KeepDuplicates", "KeepMetadata", "RemoveMetadata"))
# names that no task has
NO_TASKS = frozenset(
    """
    Project Import ImportGroup ItemDefinitionGroup Choose When Otherwise UsingTask Target Output
    ProjectExtensions
    """.split()
)

TASKS = {
    "Message": "Text Importance",
    "Warning": "Text",
    "Error": "Text",
    "Copy": "SourceFiles DestinationFiles DestinationFolder SkipUnchangedFiles",
    "WriteLinesToFile": "File Lines Overwrite",
    "ReadLinesFromFile": "File",
    "Delete": "Files",
    "CreateItem": "Include Exclude AdditionalMetadata",
    "CreateProperty": "Value",
    "MSBuild": """
        Projects Targets Properties RemoveProperties BuildInParallel StopOnFirstFailure
        SkipNonexistentProjects RunEachTargetSeparately
    """,
}
PARAMETERS = {task.lower(): frozenset(names.lower().split()) for task, names in TASKS.items()}

FUNCTIONS = {  # item functions, with the numbers of their arguments
    "Count": 0,
    "Distinct": 0,
    "Reverse": 0,
    "HasMetadata": 1,
    "WithMetadataValue": 2,
    "AnyHaveMetadataValue": 2,
    "ClearMetadata": 0,
}
ARGUMENTS = {name.lower(): number for name, number in FUNCTIONS.items()}

# property functions of a text, and of [MSBuild], with the numbers of their arguments; -1 stands
# for one without parentheses
TEXT_FUNCTIONS = {
    "Length": [-1],
    "Replace": [2],
    "Substring": [1, 2],
    "StartsWith": [1],
    "EndsWith": [1],
    "Contains": [1],
    "Trim": [0],
}
BUILD_FUNCTIONS = {"Add": [2], "Subtract": [2], "Multiply": [2], "ValueOrDefault": [2]}
OF_TEXT = {name.lower(): numbers for name, numbers in TEXT_FUNCTIONS.items()}
OF_BUILD = {name.lower(): numbers for name, numbers in BUILD_FUNCTIONS.items()}

WELL_KNOWN = """
    FullPath RootDir Filename Extension RelativeDir Directory RecursiveDir Identity
""".split()
# metadata that MSBuild has, and that are empty here
WITHOUT_VALUE = """
    ModifiedTime CreatedTime AccessedTime DefiningProjectFullPath DefiningProjectDirectory
    DefiningProjectName DefiningProjectExtension
""".split()
RESERVED = """
    MSBuildProjectDirectory MSBuildProjectFile MSBuildProjectName MSBuildProjectExtension
    MSBuildProjectFullPath MSBuildThisFile MSBuildThisFileName MSBuildThisFileFullPath
    MSBuildThisFileDirectory
""".split()
# properties that MSBuild sets itself or takes from the environment, and that are empty here
NOT_GIVEN = """
    MSBuildAssemblyVersion MSBuildBinPath MSBuildExtensionsPath MSBuildExtensionsPath32
    MSBuildExtensionsPath64 MSBuildFrameworkToolsPath MSBuildInteractive MSBuildLastTaskResult
    MSBuildNodeCount MSBuildOverrideTasksPath MSBuildProgramFiles32 MSBuildProjectDefaultTargets
    MSBuildProjectDirectoryNoRoot MSBuildRuntimeType MSBuildRuntimeVersion MSBuildSDKsPath
    MSBuildStartupDirectory MSBuildThisFileDirectoryNoRoot MSBuildThisFileExtension MSBuildToolsPath
    MSBuildToolsPath32 MSBuildToolsPath64 MSBuildToolsRoot MSBuildToolsVersion
    MSBuildUserExtensionsPath MSBuildVersion
    OS APPDATA COMPUTERNAME HOME LOCALAPPDATA PATH ProgramFiles ProgramW6432 SystemRoot TEMP TMP
    USER USERNAME USERPROFILE windir
""".split()
EMPTY_PROPERTIES = {name.lower(): name for name in NOT_GIVEN}
EMPTY_METADATA = {name.lower(): name for name in WITHOUT_VALUE}
SET_BY_ENGINE = {name.lower() for name in RESERVED}
SET_BY_ITEMS = {name.lower() for name in WELL_KNOWN + WITHOUT_VALUE}
