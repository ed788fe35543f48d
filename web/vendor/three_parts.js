// The classes of three.js that the page uses. web/vendor/update bundles them.
export {
  BoxGeometry, BufferAttribute, BufferGeometry, Color, CylinderGeometry, DirectionalLight, DoubleSide, EdgesGeometry, Group,
  HemisphereLight, InstancedBufferAttribute, InstancedBufferGeometry, LineBasicMaterial, LineSegments, LinearFilter, Mesh, MeshBasicMaterial,
  MeshLambertMaterial, NearestFilter, OrthographicCamera, Scene, ShaderMaterial, Texture, Vector2, Vector3, WebGLRenderer,
} from '/usr/share/javascript/three/three.module.js';
