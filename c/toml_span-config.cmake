# Targets: toml_span::toml_span (the shared library) and toml_span::static
get_filename_component(toml_span_prefix "${CMAKE_CURRENT_LIST_DIR}/../../.." ABSOLUTE)
if(NOT TARGET toml_span::toml_span)
    add_library(toml_span::toml_span SHARED IMPORTED)
    set_target_properties(toml_span::toml_span PROPERTIES
        IMPORTED_LOCATION "${toml_span_prefix}/lib/libtoml_span.so"
        IMPORTED_SONAME "libtoml_span.so.@ABI@"
        INTERFACE_INCLUDE_DIRECTORIES "${toml_span_prefix}/include")
    add_library(toml_span::static STATIC IMPORTED)
    set_target_properties(toml_span::static PROPERTIES
        IMPORTED_LOCATION "${toml_span_prefix}/lib/libtoml_span.a"
        INTERFACE_INCLUDE_DIRECTORIES "${toml_span_prefix}/include")
endif()
unset(toml_span_prefix)
