// draw.mjs: draws pictures by WebGL2: a texture of one byte a sample for each plane, and the matrix to RGB (Rec. ITU-T H.273) in the shader.
const VERTEX = `#version 300 es
out vec2 at;
void main() {
    at = vec2(gl_VertexID & 1, gl_VertexID >> 1);
    gl_Position = vec4(at * 2.0 - 1.0, 0.0, 1.0);
    at.y = 1.0 - at.y;
}`;
const FRAGMENT = `#version 300 es
precision highp float;
uniform sampler2D luma, cb, cr;
uniform mat3 matrix;
uniform vec3 black;
uniform vec2 site;
in vec2 at;
out vec4 color;
void main() {
    vec2 place = at + site / vec2(textureSize(cb, 0));
    color = vec4(matrix * (vec3(texture(luma, at).r, texture(cb, place).r, texture(cr, place).r) - black), 1.0);
}`;

/** The weights of red and blue in luma. Where a stream does not tell its matrix, it is BT.601's, as players have it. */
const WEIGHTS = { bt709: [0.2126, 0.0722], bt470bg: [0.299, 0.114], smpte170m: [0.299, 0.114], 'bt2020-ncl': [0.2627, 0.0593] };

/** What takes Y, Cb and Cr, from 0 to 1 each, to R, G and B: { matrix, by columns, black }. */
export function conversion({ matrix, fullRange = false } = {}) {
    const [red, blue] = WEIGHTS[matrix] ?? WEIGHTS.smpte170m, green = 1 - red - blue;
    const luma = fullRange ? 1 : 255 / 219, chroma = fullRange ? 1 : 255 / 224;
    const forBlue = 2 * (1 - blue) * chroma, forRed = 2 * (1 - red) * chroma;
    return {
        matrix: [luma, luma, luma, 0, -forBlue * blue / green, forBlue, forRed, -forRed * red / green, 0],
        black: [fullRange ? 0 : 16 / 255, 128 / 255, 128 / 255],
    };
}

/** What is added to the place of a luma sample, in chroma samples, to read the chroma there, by chroma_sample_loc_type (Figure E-1): chroma stands
 * to the left or amid, between the two rows, on the upper or on the lower. */
export function siteOf(location) {
    return [[0.25, 0], [0, 0], [0.25, 0.25], [0, 0.25], [0.25, -0.25], [0, -0.25]][location] ?? [0.25, 0];
}

export class Screen {
    #program;

    constructor(canvas) {
        this.canvas = canvas;
        const gl = this.gl = canvas.getContext('webgl2', { preserveDrawingBuffer: true, alpha: false });
        if (!gl) throw new Error('this browser has no WebGL2');
        const program = this.#program = gl.createProgram();
        for (const [kind, text] of [[gl.VERTEX_SHADER, VERTEX], [gl.FRAGMENT_SHADER, FRAGMENT]]) {
            const shader = gl.createShader(kind);
            gl.shaderSource(shader, text);
            gl.compileShader(shader);
            if (!gl.getShaderParameter(shader, gl.COMPILE_STATUS)) throw new Error(gl.getShaderInfoLog(shader));
            gl.attachShader(program, shader);
        }
        gl.linkProgram(program);
        gl.useProgram(program);
        gl.pixelStorei(gl.UNPACK_ALIGNMENT, 1);
        ['luma', 'cb', 'cr'].forEach((name, i) => {
            gl.activeTexture(gl.TEXTURE0 + i);
            gl.bindTexture(gl.TEXTURE_2D, gl.createTexture());
            for (const word of [gl.TEXTURE_WRAP_S, gl.TEXTURE_WRAP_T]) gl.texParameteri(gl.TEXTURE_2D, word, gl.CLAMP_TO_EDGE);
            for (const word of [gl.TEXTURE_MIN_FILTER, gl.TEXTURE_MAG_FILTER]) gl.texParameteri(gl.TEXTURE_2D, word, gl.LINEAR);
            gl.uniform1i(gl.getUniformLocation(program, name), i);
        });
        this.color();
    }

    /** The colour space of what is drawn, as WebCodecs names it, and its chroma_sample_loc_type. */
    color(space, location) {
        const { gl } = this, { matrix, black } = conversion(space);
        gl.uniform2fv(gl.getUniformLocation(this.#program, 'site'), siteOf(location));
        gl.uniformMatrix3fv(gl.getUniformLocation(this.#program, 'matrix'), false, matrix);
        gl.uniform3fv(gl.getUniformLocation(this.#program, 'black'), black);
    }

    /** Draws a picture from its planes, where they lie. */
    draw({ planes, width, height }) {
        const { gl, canvas } = this;
        if (canvas.width !== width || canvas.height !== height) [canvas.width, canvas.height] = [width, height];
        gl.viewport(0, 0, width, height);
        planes.forEach(({ samples, stride, columns, rows }, i) => {
            gl.activeTexture(gl.TEXTURE0 + i);
            gl.pixelStorei(gl.UNPACK_ROW_LENGTH, stride);
            gl.texImage2D(gl.TEXTURE_2D, 0, gl.R8, columns, rows, 0, gl.RED, gl.UNSIGNED_BYTE, samples);
        });
        gl.drawArrays(gl.TRIANGLE_STRIP, 0, 4);
    }
}
