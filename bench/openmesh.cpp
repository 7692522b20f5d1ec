// The library peer of `quadq tidy`: OpenMesh reads an OBJ as a polygon mesh, which checks it, and writes it.
#include <OpenMesh/Core/IO/MeshIO.hh>
#include <OpenMesh/Core/Mesh/PolyMesh_ArrayKernelT.hh>

int main(int argc, char** argv) {
    OpenMesh::PolyMesh_ArrayKernelT<> mesh;
    if (argc != 3 || !OpenMesh::IO::read_mesh(mesh, argv[1])) return 1;
    return OpenMesh::IO::write_mesh(mesh, argv[2]) ? 0 : 1;
}
