/** Matrices as objects: sums, products and powers. */
class Matrices {
    public static void main(String[] args) {
        Matrix steps = new Matrix(2, 2);
        steps.set(0, 0, 1);
        steps.set(0, 1, 1);
        steps.set(1, 0, 1);
        System.out.println(steps.show());
        for (int n = 1; n <= 40; n *= 3) {
            System.out.println("power " + n + ": " + steps.power(n).get(0, 1));
        }

        Matrix table = new Matrix(2, 3);
        for (int row = 0; row < table.rows; row++) {
            for (int column = 0; column < table.columns; column++) {
                table.set(row, column, row * 10 + column);
            }
        }
        System.out.println(table.show());
        System.out.println(table.transposed().show());
        System.out.println(table.times(table.transposed()).plus(Matrix.identity(2)).show());
        try {
            table.times(table);
        } catch (IllegalArgumentException e) {
            System.out.println(e.getMessage());
        }
    }
}

class Matrix {
    int rows;
    int columns;
    private int[] cells;

    Matrix(int rows, int columns) {
        this.rows = rows;
        this.columns = columns;
        cells = new int[rows * columns];
    }

    static Matrix identity(int size) {
        Matrix m = new Matrix(size, size);
        for (int i = 0; i < size; i++) {
            m.set(i, i, 1);
        }
        return m;
    }

    int get(int row, int column) {
        return cells[row * columns + column];
    }

    void set(int row, int column, int value) {
        cells[row * columns + column] = value;
    }

    Matrix plus(Matrix other) {
        if (rows != other.rows || columns != other.columns) {
            throw new IllegalArgumentException("can't add " + size() + " and " + other.size());
        }
        Matrix sum = new Matrix(rows, columns);
        for (int i = 0; i < cells.length; i++) {
            sum.cells[i] = cells[i] + other.cells[i];
        }
        return sum;
    }

    Matrix times(Matrix other) {
        if (columns != other.rows) {
            throw new IllegalArgumentException("can't multiply " + size() + " by " + other.size());
        }
        Matrix product = new Matrix(rows, other.columns);
        for (int row = 0; row < rows; row++) {
            for (int column = 0; column < other.columns; column++) {
                int sum = 0;
                for (int k = 0; k < columns; k++) {
                    sum += get(row, k) * other.get(k, column);
                }
                product.set(row, column, sum);
            }
        }
        return product;
    }

    Matrix power(int exponent) {
        if (exponent == 0) {
            return identity(rows);
        }
        Matrix half = power(exponent / 2);
        Matrix square = half.times(half);
        return exponent % 2 == 0 ? square : square.times(this);
    }

    Matrix transposed() {
        Matrix m = new Matrix(columns, rows);
        for (int row = 0; row < rows; row++)
            for (int column = 0; column < columns; column++)
                m.set(column, row, get(row, column));
        return m;
    }

    private String size() {
        return rows + " x " + columns;
    }

    String show() {
        String text = size();
        for (int i = 0; i < cells.length; i++) {
            text += (i % columns == 0 ? "\n| " : " ") + cells[i];
        }
        return text;
    }
}
