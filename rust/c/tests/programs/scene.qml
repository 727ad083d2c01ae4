// 120 frames of items that come and go, which is what takes sets: then it ends.
import QtQuick
import QtQuick.Window

Window {
    id: scene
    property int frame: 0
    readonly property int item_count: Math.floor(frame / 10) % 2 ? 40 + frame % 7 : 300
    visible: true
    width: 600
    height: 400
    color: "navy"

    Grid {
        columns: 20
        spacing: 1
        Repeater {
            model: scene.item_count
            Item {
                width: 29
                height: 25
                layer.enabled: index % 3 == 0
                Rectangle {
                    anchors.fill: parent
                    radius: index % 9
                    opacity: 0.4 + index / 600
                    rotation: index * 3
                    gradient: Gradient {
                        GradientStop { position: 0; color: "red" }
                        GradientStop { position: 1; color: Qt.rgba(index / 300, 1 - index / 300, 0.5, 1) }
                    }
                }
                Text {
                    text: index + scene.frame
                    color: "white"
                    font.pixelSize: 10
                }
            }
        }
    }
    onFrameSwapped: {
        frame++
        if (frame < 120)
            scene.update()
        else
            Qt.quit()
    }
}
