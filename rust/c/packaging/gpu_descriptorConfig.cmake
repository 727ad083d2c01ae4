# The targets gpu_descriptor::static and gpu_descriptor::shared.
get_filename_component(_gpu_descriptor_prefix "${CMAKE_CURRENT_LIST_DIR}/../../.." ABSOLUTE)
if(NOT TARGET gpu_descriptor::static)
  add_library(gpu_descriptor::static STATIC IMPORTED)
  set_target_properties(gpu_descriptor::static PROPERTIES
    IMPORTED_LOCATION "${_gpu_descriptor_prefix}/lib/@STATIC@"
    INTERFACE_INCLUDE_DIRECTORIES "${_gpu_descriptor_prefix}/include"
    INTERFACE_LINK_LIBRARIES "pthread;${CMAKE_DL_LIBS};m")
  add_library(gpu_descriptor::shared SHARED IMPORTED)
  set_target_properties(gpu_descriptor::shared PROPERTIES
    IMPORTED_LOCATION "${_gpu_descriptor_prefix}/lib/@SHARED@"
    IMPORTED_SONAME "@SHARED@.@ABI@"
    INTERFACE_INCLUDE_DIRECTORIES "${_gpu_descriptor_prefix}/include")
endif()
unset(_gpu_descriptor_prefix)
