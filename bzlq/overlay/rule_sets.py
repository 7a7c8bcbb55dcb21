"""The types of the attributes of well-known rules, by the documents of their rule sets. A line names rules, and then a type's attributes.

Attributes with dicts aren't here: no type of a schema takes them (guesses.py). What Bazel 4.2.3 says of its own rules is in bazel_rules.py.
"""
from bzlq.overlay.bazel_rules import TABLE as TABLE_OF_BAZEL

TABLE = """
# Bazel's own rules and rules_cc
cc_library cc_binary cc_test cc_shared_library cc_import: label_list srcs hdrs textual_hdrs deps data implementation_deps additional_linker_inputs interface_deps module_interfaces
cc_library cc_binary cc_test cc_shared_library cc_import: string_list copts conlyopts cxxopts defines local_defines includes linkopts
cc_library cc_binary cc_test cc_shared_library: label malloc link_extra_lib win_def_file linkstamp
cc_library cc_binary cc_test: bool linkstatic alwayslink linkshared
cc_library cc_binary cc_test: label_list reexport_deps
cc_library cc_binary cc_test cc_shared_library: int stamp
cc_library cc_binary cc_test: string include_prefix strip_include_prefix nocopts
cc_import: label_list objects pic_objects
cc_import: label static_library shared_library interface_library pic_static_library
cc_import: bool alwayslink system_provided linkstatic
cc_shared_library: label_list dynamic_deps preloaded_deps roots
cc_shared_library: string_list user_link_flags exports_filter static_deps
cc_shared_library: string shared_lib_name
cc_proto_library java_proto_library java_lite_proto_library py_proto_library: label_list deps exports
cc_toolchain: label all_files ar_files as_files compiler_files compiler_files_without_includes coverage_files dwp_files dynamic_runtime_lib libc_top linker_files objcopy_files static_runtime_lib strip_files toolchain_config
cc_toolchain: bool supports_header_parsing supports_param_files
cc_toolchain: string toolchain_identifier
cc_binary cc_test java_binary java_test py_binary py_test sh_binary sh_test go_binary go_test rust_binary rust_test: string_list args env_inherit
cc_test java_test py_test sh_test go_test rust_test: string size timeout
cc_test java_test py_test sh_test go_test rust_test: bool flaky local
cc_test java_test py_test sh_test go_test rust_test: int shard_count
genrule: label_list srcs tools exec_tools toolchains
genrule: output_list outs
genrule: string cmd cmd_bash cmd_bat cmd_ps message
genrule: bool executable local output_to_bindir
genrule: string_list output_licenses
test_suite: label_list tests
sh_library sh_binary sh_test: label_list srcs deps data
toolchain: label_list exec_compatible_with target_compatible_with target_settings
toolchain: label toolchain_type
# (labels that make no edges)
toolchain: string toolchain
platform: label_list constraint_values parents
platform: string remote_execution_properties
constraint_setting: string default_constraint_value
constraint_value: label constraint_setting
# rules_go and gazelle
go_library go_binary go_test go_source go_tool_library: label_list srcs deps data embed embedsrcs cdeps
go_library go_binary go_test go_source: string_list gc_goopts gc_linkopts clinkopts copts cppopts cxxopts gotags
go_library go_binary go_test: string importpath importmap
go_library go_binary go_test: string_list importpath_aliases
go_library go_binary go_test: bool cgo
go_binary go_test: string basename goarch goos linkmode msan pure race static out
go_test: string rundir
go_path: label_list deps data
go_path: string mode
go_path: bool include_data include_pkg include_transitive
go_proto_library go_grpc_library: label_list protos deps embed compilers
go_proto_library go_grpc_library: label proto compiler
go_proto_library go_grpc_library: string importpath importmap
go_proto_library go_grpc_library: string_list gc_goopts import_prefix_aliases
go_proto_compiler: label_list deps
go_proto_compiler: label plugin
go_proto_compiler: string_list options suffixes
go_proto_compiler: string suffix
go_proto_compiler: bool always_generates import_path_option valid_archive
go_embed_data: label_list srcs
go_embed_data: label src
go_embed_data: string package var
go_embed_data: bool flatten string unpack
gomock: label_list deps embed
gomock: label library source mockgen_tool
gomock: output out
gomock: string package source_importpath self_package copyright_file
gomock: string_list interfaces
nogo: label_list deps
nogo: label config
nogo: bool vet debug
gazelle: label gazelle
gazelle: string command mode external prefix repo_config
gazelle: string_list extra_args build_tags args
gazelle_binary: label_list languages
# rules_java
java_library java_binary java_test java_import java_plugin: label_list srcs deps data exports runtime_deps resources plugins exported_plugins classpath_resources proguard_specs jars additional_generator_plugins
java_library java_binary java_test java_plugin: string_list javacopts jvm_flags javabuilder_jvm_flags add_exports add_opens deploy_manifest_lines
java_binary java_test: label launcher main
java_binary java_test java_plugin: string main_class test_class processor_class bootclasspath
java_library java_binary java_test: string resource_strip_prefix
java_library java_binary java_test java_import java_plugin: bool neverlink create_executable use_testrunner use_launcher generates_api
java_binary java_test: int stamp
java_package_configuration: label_list packages data
java_package_configuration: string_list javacopts
java_import: label srcjar
java_import: bool constraints_checked
java_toolchain: label_list bootclasspath javac extclasspath tools package_configuration javabuilder_data turbine_data android_lint_data compatible_javacopts_data
java_toolchain: label_list deps_checker genclass header_compiler header_compiler_direct ijar javabuilder resourcejar singlejar
java_toolchain: label jacocorunner oneversion oneversion_whitelist oneversion_allowlist timezone_data proguard_allowlister
java_toolchain: bool forcibly_disable_header_compilation javac_supports_workers javac_supports_multiplex_workers
java_toolchain: string encoding source_version target_version
java_toolchain: string_list jvm_opts misc xlint javabuilder_jvm_opts turbine_jvm_opts header_compiler_builtin_processors reduced_classpath_incompatible_processors
# rules_python
py_library py_binary py_test: label_list srcs deps data pyi_srcs pyi_deps
py_library py_binary py_test: string_list imports
py_library py_binary py_test: string srcs_version python_version main_module
py_binary py_test: label main
py_binary py_test: int legacy_create_init stamp
py_runtime: label interpreter bootstrap_template coverage_tool
py_runtime: label_list files
py_runtime: string interpreter_path python_version stub_shebang
py_wheel: label_list deps data_files_list
py_wheel: string distribution version abi platform python_tag author author_email homepage license python_requires
py_wheel: string_list classifiers requires strip_path_prefixes
compile_pip_requirements: label src requirements_txt requirements_in requirements_darwin requirements_linux requirements_windows
compile_pip_requirements: string_list extra_args
# rules_proto
proto_library: label_list srcs deps exports data option_deps
proto_library: string strip_import_prefix import_prefix
proto_library: string_list allow_exports_of
proto_lang_toolchain: label plugin runtime
proto_lang_toolchain: label_list denylisted_protos blacklisted_protos
proto_lang_toolchain: string command_line progress_message mnemonic
# rules_rust
rust_library rust_binary rust_test rust_shared_library rust_static_library rust_proc_macro: label_list srcs deps proc_macro_deps data compile_data
rust_library rust_binary rust_test rust_shared_library rust_static_library rust_proc_macro: string_list crate_features rustc_flags rustc_env_files
rust_library rust_binary rust_test rust_shared_library rust_static_library rust_proc_macro: string edition crate_name version
rust_library rust_binary rust_test rust_shared_library rust_static_library rust_proc_macro: label crate_root malloc
rust_binary: string crate_type
rust_binary: label linker_script
rust_binary: string_list binary_features
rust_test: label crate
rust_test: bool use_libtest_harness
rust_doc rust_doc_test: label crate
rust_doc_test: label_list deps
cargo_build_script: label_list srcs deps data tools proc_macro_deps
cargo_build_script: string_list crate_features rustc_flags
cargo_build_script: string edition links crate_name
# rules_pkg
pkg_tar pkg_zip: label_list srcs deps
pkg_tar pkg_zip: string package_dir package_dir_file mode mtime owner ownername strip_prefix extension compression_type out_name
pkg_tar pkg_zip: bool portable_mtime stamp include_runfiles allow_duplicates_with_different_content create_parents
pkg_tar pkg_zip pkg_deb: output out
pkg_tar pkg_zip pkg_deb: string package_file_name
pkg_tar pkg_zip pkg_deb: label package_variables
pkg_tar: label compressor
pkg_tar: string_list empty_dirs empty_files
pkg_tar pkg_zip: string compressor_args
pkg_tar pkg_zip: int compression_level timestamp
pkg_files pkg_mkdirs pkg_mklink: string attributes
pkg_files: label_list srcs excludes
pkg_files: string prefix strip_prefix
pkg_filegroup: label_list srcs
pkg_filegroup: string prefix
pkg_mkdirs: string_list dirs
pkg_mklink: string link_name target
pkg_deb: label data architecture_file built_using_file changelog config depends_file description_file md5sums postinst postrm preinst prerm templates triggers version_file
pkg_deb: string_list breaks conffiles conflicts depends enhances predepends provides recommends replaces suggests
pkg_deb: string built_using distribution license
pkg_deb: string architecture description homepage maintainer package section priority version urgency
# rules_oci
oci_image: label base entrypoint_file cmd_file labels_file env_file
oci_image: label_list tars
oci_image: string os architecture variant user workdir
oci_image: string_list entrypoint cmd exposed_ports volumes
oci_image_index: label_list images
oci_load oci_tarball: label image
oci_load oci_tarball: string format
oci_push: label image
oci_push: string repository
# bazel_skylib
bzl_library: label_list srcs deps
build_test: label_list targets
diff_test: label file1 file2
diff_test: string failure_message
copy_file copy_directory: label src
copy_file: output out
copy_file: bool is_executable allow_symlink
copy_directory: string out
write_file: output out
write_file: string_list content
write_file: bool is_executable
write_file: string newline
expand_template: label template
expand_template: output out
native_binary native_test: label src
native_binary native_test: label_list data
native_binary native_test: string out
run_binary: label tool
run_binary: label_list srcs
run_binary: output_list outs
run_binary: string_list args
select_file: label srcs
select_file: string subpath
# of Bazel's macros of tests (test_rules.py)
_file_test_rule: label file
_file_test_rule: string content regexp
_file_test_rule: int matches
_rule_test_rule: label rule
_rule_test_rule: string_list generates
_failed_rule _successful_rule: string msg
_failed_rule _file_test_rule _rule_test_rule _successful_rule: output out
# settings
string_flag string_setting: string build_setting_default
string_flag string_setting: string_list values
bool_flag bool_setting: bool build_setting_default
int_flag int_setting: int build_setting_default
label_flag label_setting: string build_setting_default
config_setting: label_list constraint_values
config_setting_group: label_list match_all match_any
"""


def types_of(table):
    """The types by rule and attribute."""
    found = {}
    for line in table.splitlines():
        rules, colon, rest = line.partition(": ")
        if not colon or line.startswith("#"):
            continue
        kind, *names = rest.split()
        for rule in rules.split():
            found.setdefault(rule, {}).update(dict.fromkeys(names, kind))
    return found


OF_BAZEL = types_of(TABLE_OF_BAZEL)
TYPES = {rule: {name: kind for name, kind in {**types, **OF_BAZEL.get(rule, {})}.items() if kind != "dict"} for rule, types in {**OF_BAZEL, **types_of(TABLE)}.items()}
# the attributes of Bazel's own rules that take dicts
DICTS_OF = {rule: [name for name, kind in types.items() if kind == "dict"] for rule, types in OF_BAZEL.items()}
# rules that no release has changed much: a name that isn't known is none of their attributes
CLOSED = frozenset("""alias config_setting constraint_setting constraint_value environment filegroup genquery genrule label_flag label_setting platform
    test_suite toolchain toolchain_type""".split())
# attributes of later releases
LATER = frozenset("""additional_compiler_inputs aspect_hints compatible_with config_settings distribs exec_compatible_with exec_group_compatible_with
    exec_properties env_inherit interpreter_args licenses package_metadata precompile precompile_invalidation_mode precompile_optimize_level
    precompile_source_retention pyc_collection required_settings restricted_to target_compatible_with toolchains transitive_configs
    use_target_platform_constraints missing_toolchain_error flags check_types""".split())
# Bazel's own rules, of 4.2.3 and of later releases: a file may call them without a load
BAZEL = frozenset("""action_listener alias android_binary android_device android_device_script_fixture android_host_service_fixture
    android_instrumentation_test android_library android_local_test android_sdk aar_import apple_binary apple_cc_toolchain apple_static_library
    available_xcodes cc_binary cc_host_toolchain_alias cc_import cc_libc_top_alias cc_library cc_proto_library cc_shared_library cc_static_library
    cc_test cc_toolchain cc_toolchain_alias cc_toolchain_config cc_toolchain_suite config_feature_flag config_setting constraint_setting
    constraint_value environment environment_group extra_action fdo_prefetch_hints fdo_profile filegroup genquery genrule j2objc_library java_binary
    java_import java_library java_lite_proto_library java_package_configuration java_plugin java_proto_library java_runtime java_runtime_alias
    java_test java_toolchain java_toolchain_alias label_flag label_setting license memprof_profile objc_import objc_library platform propeller_optimize
    proto_lang_toolchain proto_library py_binary py_library py_proto_library py_runtime py_test sh_binary sh_library sh_test starlark_doc_extract
    test_suite toolchain toolchain_type xcode_config xcode_config_alias xcode_version""".split())
# those that take what a test takes, with Bazel's defaults
TESTS = frozenset(rule for rule in TYPES if rule.endswith("_test"))
TEST_TYPES = {"size": "string", "timeout": "string", "flaky": "bool", "shard_count": "int", "args": "string_list", "local": "bool", "env_inherit": "string_list"}
# those of them that no other rule has
OF_TESTS_ALONE = ("size", "timeout", "flaky", "shard_count")
# the attributes that each rule in Starlark has, or may have, without declaring them
OF_RULES = frozenset("""name visibility tags features testonly deprecation applicable_licenses args aspect_hints build_setting_default compatible_with distribs env
    exec_compatible_with exec_group_compatible_with exec_properties expect_failure generator_function generator_location generator_name licenses
    on_leave_scope output_licenses package_metadata restricted_to scope target_compatible_with toolchains transitive_configs""".split()) | {*TEST_TYPES}
# attributes without which a call is refused
MANDATORY = {"genrule": ("outs",), "alias": ("actual",), "toolchain": ("toolchain", "toolchain_type"), "constraint_value": ("constraint_setting",),
             "genquery": ("expression", "scope"), "label_flag": ("build_setting_default",), "label_setting": ("build_setting_default",)}
# macros among the rules of the table: those that declare targets of another kind, those that declare more targets, and those of which it is known
# which more: the endings of their names, each with the rule that is nearest
OTHER_KINDS = frozenset("build_test copy_directory copy_file diff_test go_grpc_library pkg_deb pkg_mklink pkg_tar pkg_zip write_file".split())
SEVERAL = frozenset("cargo_build_script gomock nogo oci_image oci_image_index oci_load oci_push oci_tarball py_wheel".split())
ENDINGS = {"compile_pip_requirements": {".update": "py_binary", "_test": "py_test"}, "gazelle": {"-runner": "gazelle"}}
# what macros of tests give as the size where they are given none
SIZES = {"build_test": "small", "diff_test": "small"}
